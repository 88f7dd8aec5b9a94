"""The exception of an answer that refuses."""
from __future__ import annotations

from typing import Optional

from . import _numbers
from ._cause import Cause
from ._error import ManifestError, Part, Place
from ._library import Answer, broken
from ._listings import Listings

_NO_MEMORY = "no memory was left for the manifest"

SCHEMA_CAUSES = {
    # (made by scripts/keys --write)
    1: Cause.WRONG_KIND,
    2: Cause.MISSING,
    3: Cause.TWO_SPELLINGS,
    4: Cause.NOT_A_CHOICE,
    5: Cause.OUT_OF_RANGE,
    6: Cause.NOT_TRUE,
    7: Cause.HOLDS_FLOAT,
    8: Cause.METADATA,
}

# statuses that the library has words for
_TOLD = {_numbers.OTHER: Cause.NO_LIBRARY_FILE, _numbers.DATE: Cause.DATE_WITHOUT_TEXT}

# statuses with a name in the workspace
_NAMED: dict[int, tuple[Cause, Part]] = {
    _numbers.NOT_IN_WORKSPACE: (Cause.NOT_IN_WORKSPACE, "manifest"),
    _numbers.INHERITED_IN_WORKSPACE: (Cause.INHERITED_IN_WORKSPACE, "root"),
}

_PLAIN: dict[int, tuple[Cause, Part]] = {
    _numbers.LISTINGS: (Cause.FOLDER_NOT_UTF8, "manifest"),
    _numbers.NO_WORKSPACE: (Cause.NO_WORKSPACE, "root"),
    _numbers.MIXED_LINTS: (Cause.MIXED_LINTS, "manifest"),
    _numbers.TOOL_NAMED_WORKSPACE: (Cause.TOOL_NAMED_WORKSPACE, "root"),
    _numbers.TOO_DEEP: (Cause.TOO_DEEP, "manifest"),
    _numbers.ROOT_TOO_DEEP: (Cause.TOO_DEEP, "root"),
    _numbers.TOO_LONG: (Cause.TOO_LONG, "manifest"),
    _numbers.NOT_A_VALUE: (Cause.NOT_A_VALUE, "manifest"),
    _numbers.NO_PLACE: (Cause.NO_PLACE, "manifest"),
    _numbers.OVERLAP: (Cause.OVERLAP, "manifest"),
    _numbers.NOT_EDITED: (Cause.NOT_EDITED, "manifest"),
    _numbers.NOT_TEXT: (Cause.NOT_UTF8, "manifest"),
    _numbers.CONFIGURATION: (Cause.CONFIGURATION, "manifest"),
}

# the causes of statuses that say what cannot be inherited
UNRESOLVED_CAUSES = {
    status: {**_NAMED, **_PLAIN}[status][0]
    for status in range(_numbers.NOT_IN_WORKSPACE, _numbers.TOOL_NAMED_WORKSPACE + 1)
}


def place_of(text: bytes, start: int, end: int) -> Place:
    """The place that these offsets are in a text."""
    before = text[:start]
    line_start = before.rfind(b"\n") + 1
    column = len(before[line_start:].decode("utf-8", "ignore")) + 1
    return Place(before.count(b"\n") + 1, column, start, end)


def _of_text(answer: Answer, said: str, status: int, part: Part, text: bytes) -> ManifestError:
    """The error of a text that is not read: the root's are reported as the manifest's."""
    if status == _numbers.NOT_UTF8:
        return ManifestError(Cause.NOT_UTF8, part=part)
    if status == _numbers.NO_TOML:
        return ManifestError(Cause.NO_TOML, said, part=part, place=place_of(text, answer.start, answer.end))
    if status == _numbers.SCHEMA and answer.cause in SCHEMA_CAUSES:
        return ManifestError(SCHEMA_CAUSES[answer.cause], part=part, path_text=said)
    raise broken()


def _of_folder(answer: Answer, listings: Optional[Listings]) -> Exception:
    """The exception of a folder, with the fault that it was listed with as its cause."""
    folder, fault = (None, None) if listings is None else listings.fault(answer.cause)
    refused: Exception
    if answer.cause == _numbers.OUT_OF_MEMORY:
        refused = MemoryError(_NO_MEMORY)
    else:
        is_there = answer.cause != _numbers.NOT_FOUND
        refused = ManifestError(Cause.FOLDER_FAULT if is_there else Cause.FOLDER_NOT_FOUND, name=folder)
    refused.__cause__ = fault
    return refused


def refusal(answer: Answer, said: str, manifest: bytes, root: bytes, listings: Optional[Listings]) -> Exception:
    """The exception of an answer with this text, to a call with what else is passed in here."""
    status = answer.status
    if status in _PLAIN:
        cause, part = _PLAIN[status]
        return ManifestError(cause, part=part)
    if status > _numbers.OF_ROOT:
        return _of_text(answer, said, status - _numbers.OF_ROOT, "root", root)
    if status == _numbers.IO:
        return _of_folder(answer, listings)
    if status == _numbers.MEMORY:
        return MemoryError(_NO_MEMORY)
    if status in _TOLD:
        return ManifestError(_TOLD[status], said)
    if status in _NAMED:
        cause, part = _NAMED[status]
        return ManifestError(cause, part=part, name=said)
    return _of_text(answer, said, status, "manifest", manifest)
