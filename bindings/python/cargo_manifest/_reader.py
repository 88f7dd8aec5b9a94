"""Tagged bytes, read from the beginning."""
from __future__ import annotations

from collections.abc import Callable
from typing import Optional, TypeVar

from ._library import broken

T = TypeVar("T")

# the tags of values
TEXT, NUMBER, BELOW_ZERO, FALSE, TRUE, DATE_TIME, ARRAY, TABLE = range(1, 9)


def utf8(held: bytes) -> str:
    """The text of bytes that the library gave."""
    try:
        return held.decode("utf-8")
    except UnicodeDecodeError as fault:
        raise broken() from fault


class Reader:
    """Bytes that the library gave, and how far they are read."""

    def __init__(self, held: bytes) -> None:
        self._held = held
        self._at = 0

    def is_at_end(self) -> bool:
        return self._at == len(self._held)

    def take(self, length: int) -> bytes:
        end = self._at + length
        if end > len(self._held):
            raise broken()
        taken = self._held[self._at : end]
        self._at = end
        return taken

    def byte(self) -> int:
        return self.take(1)[0]

    def number(self) -> int:
        """Groups of seven bits, the lowest first, with 128 added to each but the last."""
        number = shift = 0
        while True:
            group = self.byte()
            number |= (group & 127) << shift
            if group < 128:
                return number
            shift += 7

    def text(self) -> str:
        return utf8(self.take(self.number()))

    def part(self, read: Callable[[], T]) -> Optional[T]:
        """What `read` reads, where there is any."""
        return read() if self.byte() else None

    def tag(self, tag: int) -> None:
        """Steps over this tag."""
        if self.byte() != tag:
            raise broken()

    def whole_number(self) -> int:
        """A number, by its tag."""
        self.tag(NUMBER)
        return self.number()

    def array(self) -> int:
        """How many values an array has, by its tag and its length. They are read next."""
        self.tag(ARRAY)
        return self.number()
