"""Lines and columns of offsets in a text."""
from __future__ import annotations

import ctypes
from collections.abc import Iterable, Sequence
from typing import NamedTuple

from ._answer import answered
from ._library import broken, manifest_positions
from ._places import Ranges, packed
from ._reader import Reader
from ._texts import Text, bytes_of


class Position(NamedTuple):
    """Where an offset is in a text.

    - `line`: from 1. A line ends with a line feed, and with nothing else.
    - `bytes`, `characters`, `units`: how many bytes, characters and units of UTF-16 stand before it in its line.
    """

    line: int
    bytes: int
    characters: int
    units: int


def positions(text: Text, offsets: Iterable[int]) -> list[Position]:
    r"""Where each of these offsets is in a text, by its line and three kinds of columns, in the order of the offsets.

    `text` is as in `canonical`, and need not be TOML. An offset counts bytes from 0; those of a `str` are of its UTF-8. The
    end of the text is one. Of an offset within a character that character is counted. One call reads the text once, however
    many offsets there are.

    Raises `ManifestError` where the text is not UTF-8, `ValueError` for an offset that is below 0 or after the end of the
    text, the `OSError` of a file that cannot be read, and `MemoryError` where no memory is left.

    >>> text = "[package]\nname = '😀' # here"
    >>> positions(text, [text.encode().index(b"#"), 0])
    [Position(line=2, bytes=14, characters=11, units=12), Position(line=1, bytes=0, characters=0, units=0)]
    """
    given = bytes_of(text, "text")
    asked = list(offsets)
    for offset in asked:
        if isinstance(offset, bool) or not isinstance(offset, int):
            raise TypeError(f"an offset has to be an int, not {type(offset).__name__}")
        if not 0 <= offset <= len(given):
            raise ValueError(f"the offset {offset} is not within the text, which has {len(given)} bytes")
    ascending = sorted(set(asked))
    found = dict(zip(ascending, positions_of(given, ascending)))
    return [found[offset] for offset in asked]


def positions_of(text: bytes, ascending: Sequence[int]) -> list[Position]:
    """Where each of these offsets is, which ascend and are within the text."""
    offsets = (ctypes.c_size_t * len(ascending))(*ascending)
    # (as many bytes as an answer has for numbers below 2,097,152)
    room = 18 * len(ascending)
    reader = Reader(answered(manifest_positions, None, text, offsets, len(ascending), room=room))
    if reader.array() != len(ascending):
        raise broken()
    found = [_position(reader) for _ in ascending]
    if not reader.is_at_end():
        raise broken()
    return found


def _position(reader: Reader) -> Position:
    if reader.array() != len(Position._fields):
        raise broken()
    return Position(*(reader.whole_number() for _ in Position._fields))


def places_of(text: bytes, all_ranges: Sequence[Ranges]) -> list[bytes]:
    """The places that these ranges are in a text, each with the line and the column of its first range."""
    spans = [ranges.first() for ranges in all_ranges]
    starts = sorted({span.start for span in spans if span is not None})
    positions = dict(zip(starts, positions_of(text, starts))) if starts else {}
    places = []
    for ranges, span in zip(all_ranges, spans):
        position = None if span is None else positions[span.start]
        places.append(packed(ranges) if position is None else packed(ranges, position.line, position.characters + 1))
    return places
