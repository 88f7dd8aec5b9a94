"""Key paths: the steps from the whole table of a text to a value in it, and how they are written as a text."""
from __future__ import annotations

import re
from collections.abc import Iterable
from typing import NamedTuple, Optional, Union

from ._library import broken

Step = Union[str, int]
KeyPath = tuple[Step, ...]

TOP = "(top)"
BARE = re.compile(r"[A-Za-z0-9_-]+")
_STEP = re.compile(r'\[([0-9]+)\]|\.([A-Za-z0-9_-]+)|\."([^"\\]*(?:\\.[^"\\]*)*)"')
_ESCAPED = re.compile(r"\\(?:u([0-9A-F]{4})|(.))")
_TO_ESCAPE = re.compile(r'["\\\x00-\x1f\x7f]')


def _unescaped(found: re.Match[str]) -> str:
    return chr(int(found[1], 16)) if found[1] else found[2]


def _escaped(found: re.Match[str]) -> str:
    character = found[0]
    return f"\\{character}" if character in '"\\' else f"\\u{ord(character):04X}"


def steps_of(text: str) -> KeyPath:
    """The steps of a path that the library wrote, as `package.authors[0]`."""
    steps: list[Step] = []
    if text == TOP:
        return ()
    left = text if text.startswith("[") else f".{text}"
    at = 0
    while at < len(left):
        found = _STEP.match(left, at)
        if found is None:
            raise broken()
        index, bare, quoted = found.groups()
        if index is not None:
            steps.append(int(index))
        else:
            steps.append(_ESCAPED.sub(_unescaped, quoted) if bare is None else bare)
        at = found.end()
    return tuple(steps)


def key_text(key: str) -> str:
    """A key as it stands in a path: between quotes where it is no bare key."""
    return key if BARE.fullmatch(key) else f'"{_TO_ESCAPE.sub(_escaped, key)}"'


def text_of(path: KeyPath) -> str:
    """The text of a path, written as the library writes it."""
    steps = (f"[{step}]" if isinstance(step, int) else f".{key_text(step)}" for step in path)
    return "".join(steps).removeprefix(".") or TOP


class Link(NamedTuple):
    """The last step of a path, and the link of the steps before it, if there are any. Paths share the links before theirs."""

    outer: Optional[Link]
    step: Step


def link_of(path: Iterable[Step]) -> Optional[Link]:
    """The link of a path."""
    link = None
    for step in path:
        link = Link(link, step)
    return link


def path_of(link: Optional[Link]) -> KeyPath:
    """The path of a link."""
    steps: list[Step] = []
    while link is not None:
        steps.append(link.step)
        link = link.outer
    return tuple(reversed(steps))
