"""What is found in a document, and where, of the tagged bytes in which the library reports it."""
from __future__ import annotations

from collections.abc import Callable, Iterator
from typing import NamedTuple, Optional, TypeVar

from ._cause import Cause
from ._library import broken
from ._paths import Link, Step
from ._places import Ranges, ranges_in
from ._reader import NUMBER, TEXT, Reader
from ._refusal import SCHEMA_CAUSES

# what a part is
FAULT, IGNORED, UNUSED, _BELOW = range(4)

Choices = tuple[str, ...]
T = TypeVar("T")


class Found(NamedTuple):
    """One thing that is found: what it is, the link of its path, and of a fault its cause and the texts that may stand
    there."""

    what: int
    link: Optional[Link]
    cause: Optional[Cause] = None
    choices: Choices = ()


class _Level:
    """A value of the document, and how many parts of what is found there are still to come."""

    __slots__ = ("link", "left")

    def __init__(self, link: Optional[Link], left: int) -> None:
        self.link = link
        self.left = left


def text_in(reader: Reader) -> str:
    """A text, by its tag."""
    reader.tag(TEXT)
    return reader.text()


def step_in(reader: Reader) -> Step:
    """A step of a path: a key or an index."""
    tag = reader.byte()
    if tag not in (TEXT, NUMBER):
        raise broken()
    return reader.text() if tag == TEXT else reader.number()


def _cause(reader: Reader, length: int) -> tuple[Cause, Choices]:
    """The cause of a fault, whose part has this many values, and the texts that may stand there."""
    cause = SCHEMA_CAUSES.get(reader.whole_number())
    if cause is None or length != (3 if cause is Cause.NOT_A_CHOICE else 2):
        raise broken()
    return cause, tuple(text_in(reader) for _ in range(reader.array())) if length == 3 else ()


def parts_in(reader: Reader, read: Callable[[int, int, Optional[Link]], T]) -> Iterator[T]:
    """What `read` makes of each part, in its order, of a tree that is read next, of what the part is, how many values it has, and
    the link of its path. The tree is read by a loop, so that no nesting takes stack."""
    levels = [_Level(None, reader.array())]
    while levels:
        level = levels[-1]
        if level.left == 0:
            levels.pop()
            continue
        level.left -= 1
        length, what = reader.array(), reader.whole_number()
        if (what, length) == (_BELOW, 3):
            link = Link(level.link, step_in(reader))
            levels.append(_Level(link, reader.array()))
        else:
            yield read(what, length, level.link)


def found_in(reader: Reader) -> Iterator[Found]:
    """What is found, in its order, of a tree of it that is read next."""
    known: dict[Choices, Choices] = {}

    def read(what: int, length: int, link: Optional[Link]) -> Found:
        if what in (FAULT, IGNORED):
            cause, choices = _cause(reader, length)
            # (faults share the texts)
            return Found(what, link, cause, known.setdefault(choices, choices))
        if (what, length) == (UNUSED, 2):
            return Found(what, Link(link, text_in(reader)))
        raise broken()

    return parts_in(reader, read)


def all_ranges_in(reader: Reader, count: int) -> list[Ranges]:
    """The ranges of this many things, of an array of them that is read next; it is empty where the library has no places."""
    placed = reader.array()
    if placed not in (0, count):
        raise broken()
    return [ranges_in(reader) if placed else Ranges() for _ in range(count)]


def placed_in(held: bytes, wanted: int) -> list[tuple[Found, Ranges]]:
    """What the bytes say is found of this kind, in its order, and the ranges of each: a tree, and an array of all ranges."""
    reader = Reader(held)
    if reader.array() != 2:
        raise broken()
    found = list(found_in(reader))
    placed = list(zip(found, all_ranges_in(reader, len(found))))
    if not reader.is_at_end():
        raise broken()
    return [(each, ranges) for each, ranges in placed if each.what == wanted]
