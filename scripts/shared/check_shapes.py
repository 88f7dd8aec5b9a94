"""What the formats for machines look like: the diagnostics of rustc as JSON, and the parts of SARIF 2.1.0 that are written.

A shape is a kind of value (`str`), several of them (a set of values, or `Maybe`), a list with one shape in it, or a table with a
shape for each key, all of which have to be there unless they are `Optional`, and no others.
"""
from typing import Any, NamedTuple

LEVELS = {"error", "warning", "note", "help"}


class Maybe(NamedTuple):
    """A shape, or null."""

    shape: Any


class Optional(NamedTuple):
    """The shape of a key that may be absent."""

    shape: Any


TEXT = {"text": str, "highlight_start": int, "highlight_end": int}
SPAN = {
    "file_name": str, "byte_start": int, "byte_end": int, "line_start": int, "line_end": int, "column_start": int,
    "column_end": int, "is_primary": bool, "text": [TEXT], "label": Maybe(str), "suggested_replacement": Maybe(str),
    "suggestion_applicability": Maybe({"MachineApplicable", "MaybeIncorrect", "HasPlaceholders", "Unspecified"}),
    "expansion": Maybe({}),
}
CHILD = {
    "message": str, "code": Maybe({"code": str, "explanation": Maybe(str)}), "level": LEVELS, "spans": [SPAN],
    "children": [{}], "rendered": Maybe(str),
}
DIAGNOSTIC = {**CHILD, "$message_type": {"diagnostic"}, "children": [CHILD]}

MESSAGE = {"text": str}
REGION = {"startLine": int, "startColumn": int, "endLine": int, "endColumn": int}
ARTIFACT = {"uri": str}
LOCATION = {
    "physicalLocation": {"artifactLocation": ARTIFACT, "region": Optional(REGION)}, "message": Optional(MESSAGE),
}
RULE = {"id": str, "fullDescription": MESSAGE, "defaultConfiguration": {"level": {"error", "warning", "note", "none"}}}
CHANGE = {"artifactLocation": ARTIFACT, "replacements": [{"deletedRegion": REGION, "insertedContent": MESSAGE}]}
RESULT = {
    "ruleId": str, "level": {"error", "warning", "note", "none"}, "message": MESSAGE, "locations": [LOCATION],
    "relatedLocations": [LOCATION], "fixes": Optional([{"description": MESSAGE, "artifactChanges": [CHANGE]}]),
}
LOG = {
    "$schema": str, "version": {"2.1.0"},
    "runs": [{"tool": {"driver": {"name": str, "rules": [RULE]}}, "columnKind": {"unicodeCodePoints"}, "results": [RESULT]}],
}


def fault_of(value, shape, path=""):
    """Where a value has another shape, and why; or None."""
    if isinstance(shape, Optional):
        return fault_of(value, shape.shape, path)
    if isinstance(shape, Maybe):
        return None if value is None else fault_of(value, shape.shape, path)
    if isinstance(shape, set):
        return None if value in shape else f"{path} is {value!r}"
    if isinstance(shape, type):
        return None if type(value) is shape else f"{path} is {value!r}"
    if isinstance(shape, list):
        if not isinstance(value, list):
            return f"{path} is no list"
        return next(filter(None, (fault_of(each, shape[0], f"{path}[{index}]") for index, each in enumerate(value))), None)
    return fault_of_table(value, shape, path)


def fault_of_table(value, shape, path):
    """Where a table has another shape, and why; or None."""
    if not isinstance(value, dict):
        return f"{path} is no table"
    needed = {key for key, inner in shape.items() if not isinstance(inner, Optional)}
    if not needed <= set(value) <= set(shape):
        return f"{path} has the keys {sorted(value)}"
    faults = (fault_of(inner, shape[key], f"{path}.{key}") for key, inner in value.items())
    return next(filter(None, faults), None)


def span_text(text, span):
    """The text of a span of JSON, by its bytes and by its lines and columns; None where these differ."""
    by_bytes = text.encode()[span["byte_start"]:span["byte_end"]].decode()
    lines = text.split("\n")
    first, last = span["line_start"] - 1, span["line_end"] - 1
    from_column, to_column = span["column_start"] - 1, span["column_end"] - 1
    if first == last:
        by_columns = lines[first][from_column:to_column]
    else:
        by_columns = "\n".join([lines[first][from_column:], *lines[first + 1:last], lines[last][:to_column]])
    return by_bytes if by_bytes == by_columns else None
