"""Values that the library returns as tagged bytes."""
from __future__ import annotations

from collections.abc import Callable
from typing import Any, Union

from ._dates import date_time
from ._cause import Cause
from ._error import ManifestError
from ._library import broken
from ._paths import text_of
from ._reader import ARRAY, BELOW_ZERO, DATE_TIME, FALSE, NUMBER, TABLE, TEXT, TRUE, Reader


class _Open:
    """An array or a table that is being read: what it has by now, and how many values are still to come."""

    __slots__ = ("values", "left", "step")

    def __init__(self, values: Union[list[Any], dict[str, Any]], left: int) -> None:
        self.values = values
        self.left = left
        self.step: Union[int, str] = 0

    def begin(self, reader: Reader) -> None:
        """Goes on to the next value, of which a table has the key first."""
        self.left -= 1
        self.step = len(self.values) if isinstance(self.values, list) else reader.text()

    def put(self, value: Any) -> None:
        if isinstance(self.values, list):
            self.values.append(value)
        else:
            self.values[str(self.step)] = value


def simple(reader: Reader, tag: int) -> Any:
    """What stands after the tag of a value that holds no other."""
    if tag == TEXT:
        return reader.text()
    if tag == NUMBER:
        return reader.number()
    if tag == BELOW_ZERO:
        return -1 - reader.number()
    if tag in (FALSE, TRUE):
        return tag == TRUE
    if tag == DATE_TIME:
        return date_time(reader)
    raise broken()


def _read(reader: Reader, holders: list[_Open], read_simple: Callable[[Reader, int], Any]) -> None:
    """Reads one more value into the innermost holder. One that holds others is put there empty, and is filled next."""
    holder = holders[-1]
    holder.begin(reader)
    tag = reader.byte()
    if tag in (ARRAY, TABLE):
        inner: Union[list[Any], dict[str, Any]] = [] if tag == ARRAY else {}
        holder.put(inner)
        holders.append(_Open(inner, reader.number()))
        return
    try:
        holder.put(read_simple(reader, tag))
    except ValueError as fault:
        # only date-times report one; the outermost holder is not part of the value
        path = tuple(each.step for each in holders[1:])
        raise ManifestError(Cause.DATE_BEYOND_PYTHON, path_text=text_of(path)) from fault


def decoded(held: bytes, read_simple: Callable[[Reader, int], Any] = simple) -> Any:
    """The value that the bytes hold, of whose parts those that hold no others are read by a function. It is read by a loop, so that
    no nesting takes stack."""
    reader = Reader(held)
    whole: list[Any] = []
    holders = [_Open(whole, 1)]
    while holders:
        if holders[-1].left == 0:
            holders.pop()
        else:
            _read(reader, holders, read_simple)
    if not reader.is_at_end():
        raise broken()
    return whole[0]
