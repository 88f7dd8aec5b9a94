"""What is found in a document: its faults, what is ignored, and the keys that nothing reads."""
from __future__ import annotations

from collections.abc import Iterable, Iterator
from typing import Any, Optional, cast

from ._answer import answered
from ._cause import Cause
from ._library import manifest_placed_findings
from ._messages import said_of
from ._parts import FAULT, IGNORED, UNUSED, Choices, Found, placed_in
from ._paths import KeyPath, Link, Step, link_of, path_of
from ._places import Located
from ._positions import places_of
from ._texts import Text, bytes_of
from ._unused import UnusedKey


class Fault(Located):
    """A value, or its absence, that does not fit. Its text is one line.

    - `path`: the keys and indexes that lead to it from the top of the text, as `("package", "authors", 0)`. What is
      missing has the path that it would have. The tuple is made each time: a fault holds its last step, and what stands
      below one key shares the steps to it.
    - `cause`: why, a `Cause`, which equals its words, as `"wrong kind"`.
    - `choices`: the texts that may stand there, where the cause is `Cause.NOT_A_CHOICE`; else `()`.

    Where it stands, as a call found it; of what is missing, where the table stands in which it belongs. Each is None where
    there is no such place. Faults that differ in their places alone are equal.

    - `span`: the range of the value, a `Span` of bytes, those of a `str` of its UTF-8; of a table that headers or dotted keys
      make, which has none, that of its key, or else that of its header.
    - `key_span`: the key before the value, the whole of a dotted one; of a table that a dotted key goes through, that key up
      to the part that leads there.
    - `header_span`: the header that it stands under; of a table with a header of its own, that header; of a table that headers
      go through, the first of these; of an array of tables, the header of its first item.
    - `line`, `column`: where `span` begins, from 1; the column counts characters.

    >>> fault = Fault(("package", "edition"), Cause.NOT_A_CHOICE, ("2015", "2018", "2021", "2024"))
    >>> print(fault)
    `package.edition` is none of `2015`, `2018`, `2021`, `2024`
    >>> fault.cause == "not a choice", fault.path, fault.choices[-1]
    (True, ('package', 'edition'), '2024')
    """

    __slots__ = ("_link", "_cause", "_choices")
    _link: Optional[Link]
    _cause: Cause
    _choices: Choices

    def __init__(self, path: Iterable[Step], cause: Cause, choices: Iterable[str] = ()) -> None:
        self._link = link_of(path)
        self._cause = cause
        self._choices = tuple(choices)
        self._place = b""

    @classmethod
    def _of(cls, found: Found, place: bytes) -> Fault:
        """The fault that is found at a place, whose path is not made."""
        fault = cls.__new__(cls)
        fault._link, fault._cause, fault._choices = found.link, cast(Cause, found.cause), found.choices
        fault._place = place
        return fault

    @property
    def path(self) -> KeyPath:
        return path_of(self._link)

    @property
    def cause(self) -> Cause:
        return self._cause

    @property
    def choices(self) -> Choices:
        return self._choices

    def _parts(self) -> tuple[KeyPath, Cause, Choices]:
        return self.path, self.cause, self.choices

    def __eq__(self, other: object) -> bool:
        if not isinstance(other, Fault):
            return NotImplemented
        return self._parts() == other._parts()

    def __hash__(self) -> int:
        return hash(self._parts())

    def __str__(self) -> str:
        return said_of(self.cause, self.path, self.choices)

    def __repr__(self) -> str:
        return f"Fault(path={self.path!r}, cause={self.cause!r}, choices={self.choices!r})"

    def __reduce__(self) -> tuple[Any, ...]:
        return type(self), self._parts(), (None, {"_place": self._place})


def _found(manifest: Text, most: Optional[int], wanted: int) -> Iterator[tuple[Found, bytes]]:
    """What is found of this kind, each with its place."""
    text = bytes_of(manifest, "manifest")
    found = placed_in(answered(manifest_placed_findings, most, text), wanted)
    places = places_of(text, [ranges for _, ranges in found])
    return zip((each for each, _ in found), places)


def faults(manifest: Text, *, most: Optional[int] = None) -> list[Fault]:
    r"""Every fault of a manifest, where the other calls report the first one alone; none where they accept it.

    They stand in the order in which `docs/KEYS.md` of the repository has the keys: the values of a table key by key,
    and those of lists and maps one by one.

    Metadata is not looked at: a float in it is no fault, though `canonical` and `table` refuse it unless they are asked to
    leave metadata out.

    `manifest` is as in `canonical`. `most` is how many bytes the library may take to pass on what it finds, and where.

    Raises what `canonical` does of a text that is no TOML or nests too deep, and of what is found in more bytes than
    `most`; a fault is what is returned, and raises nothing.

    >>> for fault in faults("[package]\nname = 1\nedition = '2020'\nauthors = ['a', true]"):
    ...     print(fault)
    invalid type for `package.name`: expected a string
    `package.edition` is none of `2015`, `2018`, `2021`, `2024`
    invalid type for `package.authors[1]`: expected a string
    >>> fault.path, fault.line, fault.column, fault.span, fault.header_span
    (('package', 'authors', 1), 4, 17, Span(start=52, end=56), Span(start=0, end=9))
    """
    return [Fault._of(each, place) for each, place in _found(manifest, most, FAULT)]


def ignored(manifest: Text, *, most: Optional[int] = None) -> list[Fault]:
    r"""What does not fit in a manifest and refuses nothing: badges, which count as absent.

    Takes what `faults` takes, raises what `faults` does, and has the same order.

    >>> [str(each) for each in ignored("package.name = 'a'\nbadges.gitlab = 1")]
    ['invalid type for `badges.gitlab`: expected a table']
    """
    return [Fault._of(each, place) for each, place in _found(manifest, most, IGNORED)]


def unused_keys(manifest: Text, *, most: Optional[int] = None) -> list[UnusedKey]:
    r"""The keys that nothing reads, as misspelled ones and those that only Cargo knows: no manifest has them, and no text that
    is written.

    Those of a table stand after what is found in its other keys. Nothing below such a key is looked at.

    Takes what `faults` takes, and raises what `faults` does.

    >>> keys = unused_keys("[package]\nname = 'a'\nedtion = '2021'\n[dependecies]\nb = '1'")
    >>> keys
    [UnusedKey(path=('package', 'edtion')), UnusedKey(path=('dependecies',))]
    >>> [(key.line, key.key_span) for key in keys]
    [(3, Span(start=21, end=27)), (4, None)]
    """
    return [UnusedKey._of(each.link, place) for each, place in _found(manifest, most, UNUSED)]
