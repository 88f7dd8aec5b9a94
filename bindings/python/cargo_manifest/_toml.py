"""Values as TOML text, for edits."""
from __future__ import annotations

from collections.abc import Mapping
from datetime import date, datetime, time
from typing import Any

from ._paths import BARE

# the escapes of a text between double quotes, but for those by number
_ESCAPES = {"\b": "\\b", "\t": "\\t", "\n": "\\n", "\f": "\\f", "\r": "\\r", '"': '\\"', "\\": "\\\\"}


def toml_of(value: Any) -> str:
    r"""The TOML text of a value in one line, as `Edit.set` and `Edit.insert` take it.

    `value` is a str, bool, int, float, datetime, date, time, list, tuple or dict, and what stands in it too: what `table` and
    Python's `tomllib` give. Raises `TypeError` of anything else, and of a key that is no str.

    >>> toml_of({"version": "1.2", "features": ["a b", "c\n"], "optional": True})
    '{ version = "1.2", features = ["a b", "c\\n"], optional = true }'
    """
    if isinstance(value, str):
        return _quoted(value)
    if isinstance(value, bool):
        return "true" if value else "false"
    if isinstance(value, (int, float)):
        return repr(value)
    if isinstance(value, (datetime, date, time)):
        return value.isoformat()
    if isinstance(value, (list, tuple)):
        return f"[{', '.join(map(toml_of, value))}]"
    if isinstance(value, Mapping):
        return "{ " + ", ".join(map(_member, value.items())) + " }" if value else "{}"
    raise TypeError(f"{type(value).__name__} is no type of TOML")


def _member(item: tuple[Any, Any]) -> str:
    key, value = item
    if not isinstance(key, str):
        raise TypeError(f"a key has to be a str, not {type(key).__name__}")
    return f"{key if BARE.fullmatch(key) else _quoted(key)} = {toml_of(value)}"


def _quoted(text: str) -> str:
    return '"' + "".join(map(_escaped, text)) + '"'


def _escaped(char: str) -> str:
    return _ESCAPES.get(char) or (f"\\u{ord(char):04X}" if ord(char) < 0x20 or ord(char) == 0x7F else char)
