"""Where something stands in a text."""
from __future__ import annotations

import struct
from typing import NamedTuple, Optional

from ._library import broken
from ._reader import Reader

# what stands for a number that there is not
_NONE = 2**64 - 1
# the ranges of a value, of its key and of its header, and the line and the column of the first of them that there is
_FORM = struct.Struct("=8Q")


class Span(NamedTuple):
    """A range of bytes of a text: where it begins, and where it ends, which is the first byte after it.

    >>> text = "[package]\\nname = 1"
    >>> start, end = Span(start=17, end=18)
    >>> text.encode()[start:end]
    b'1'
    """

    start: int
    end: int


class Ranges(NamedTuple):
    """Where a value, its key and its header stand, as far as they have places."""

    value: Optional[Span] = None
    key: Optional[Span] = None
    header: Optional[Span] = None

    def first(self) -> Optional[Span]:
        """The first of them that there is."""
        return self.value or self.key or self.header


class Located:
    """What has a place in a text. The place is held as bytes, and what is asked for is made of them each time."""

    __slots__ = ("_place",)
    _place: bytes

    def _ranges(self) -> Ranges:
        if not self._place:
            return Ranges()
        numbers = _FORM.unpack(self._place)
        pairs = zip(numbers[0:6:2], numbers[1:6:2])
        return Ranges(*(None if start == _NONE else Span(start, end) for start, end in pairs))

    def _number(self, index: int) -> Optional[int]:
        number: int = _FORM.unpack(self._place)[index] if self._place else _NONE
        return None if number == _NONE else number

    @property
    def span(self) -> Optional[Span]:
        return self._ranges().first()

    @property
    def key_span(self) -> Optional[Span]:
        return self._ranges().key

    @property
    def header_span(self) -> Optional[Span]:
        return self._ranges().header

    @property
    def line(self) -> Optional[int]:
        return self._number(6)

    @property
    def column(self) -> Optional[int]:
        return self._number(7)


def packed(ranges: Ranges, line: Optional[int] = None, column: Optional[int] = None) -> bytes:
    """The place that ranges make, with the line and the column of the first of them."""
    numbers = [number for span in ranges for number in span or (_NONE, _NONE)]
    return _FORM.pack(*numbers, *(_NONE if number is None else number for number in (line, column)))


def ranges_in(reader: Reader) -> Ranges:
    """Ranges, as the library gives them: of each its two numbers, or none."""
    if reader.array() != len(Ranges._fields):
        raise broken()
    return Ranges(*(span_in(reader) for _ in Ranges._fields))


def ranges_or_none_in(reader: Reader) -> Ranges:
    """The same, or none of them where the array of the three is empty."""
    length = reader.array()
    if length not in (0, len(Ranges._fields)):
        raise broken()
    return Ranges(*(span_in(reader) for _ in range(length)))


def span_in(reader: Reader) -> Optional[Span]:
    """A range, as the library gives it: its two numbers, or none."""
    length = reader.array()
    if length not in (0, 2):
        raise broken()
    return Span(reader.whole_number(), reader.whole_number()) if length else None
