"""What the errors say: the words that serde and Cargo use."""
from __future__ import annotations

from typing import Optional

from ._cause import Cause
from ._expected import Expected, expected_at, listed
from ._paths import TOP, KeyPath, key_text, text_of

# what is said of a cause that has no path
_SENTENCES = {
    Cause.NO_TOML: "invalid TOML",
    Cause.NOT_UTF8: "invalid UTF-8",
    Cause.TOO_DEEP: "nested too deep: the limit is 128 arrays and tables within one another",
    Cause.TOO_LONG: "the result could take more bytes than `most`",
    Cause.FOLDER_NOT_FOUND: "folder not found",
    Cause.FOLDER_FAULT: "folder cannot be listed",
    Cause.FOLDER_NOT_UTF8: "the path of a folder, or a name in it, is not UTF-8",
    Cause.NO_LIBRARY_FILE: "the library has no file",
    Cause.NO_WORKSPACE: "missing table `workspace`",
    Cause.MIXED_LINTS: "`lints` cannot have lints of its own next to `workspace = true`",
    Cause.TOOL_NAMED_WORKSPACE: "`lints` is inherited from a workspace with lints of a tool named `workspace`",
    Cause.DATE_WITHOUT_TEXT: "a date-time cannot be written",
    Cause.NOT_A_VALUE: "an edit puts in what is not one value of TOML",
    Cause.NO_PLACE: "at the path of an edit there is nothing that it can change",
    Cause.OVERLAP: "two edits touch the same place",
    Cause.CONFIGURATION: "the configuration of Cargo is no TOML, or nests too deep",
    Cause.NOT_EDITED: "the new text would not be the document with the edits, as where a new key is there already",
}

# the same for one that has the name of a key
_NAMED = {
    Cause.NOT_IN_WORKSPACE: "`{}` is inherited from the workspace, which does not define it",
    Cause.INHERITED_IN_WORKSPACE:
        "the dependency `{}` is inherited from the workspace, whose own entry says `workspace = true`",
}


def _two_spellings(path: KeyPath, place: str) -> str:
    """What is said of a key that stands by both of its spellings; the path has the first one."""
    key = str(path[-1]) if path else ""
    return f"{place} is given twice, as `{key}` and as `{key.replace('-', '_')}`"


def said_of(cause: Cause, path: KeyPath, choices: tuple[str, ...] = ()) -> str:
    """What is wrong at a key path, in one line."""
    text = text_of(path)
    place = "the manifest" if text == TOP else f"`{text}`"
    expected: Optional[Expected] = expected_at(path)
    what = "" if expected is None else f": expected {expected.what}"
    if cause is Cause.NOT_A_CHOICE:
        return f"{place} is none of {listed(choices or (() if expected is None else expected.choices))}"
    if cause is Cause.TWO_SPELLINGS:
        return _two_spellings(path, place)
    return {
        Cause.WRONG_KIND: f"invalid type for {place}{what}",
        Cause.MISSING: f"missing field {place}",
        Cause.HOLDS_FLOAT: f"invalid type for {place}: expected a value without a float",
        Cause.METADATA: f"invalid metadata in {place}",
        Cause.DATE_BEYOND_PYTHON: f"invalid value for {place}: `datetime` has no such date-time",
    }.get(cause, f"invalid value for {place}{what}")


def message(cause: Cause, path: Optional[KeyPath], name: Optional[str]) -> str:
    """What an error with this cause says, with its path or its name if it has one."""
    if path is not None:
        return said_of(cause, path)
    if name is not None and cause in _NAMED:
        return _NAMED[cause].format(key_text(name))
    if name is not None and cause in (Cause.FOLDER_NOT_FOUND, Cause.FOLDER_FAULT):
        return f"{_SENTENCES[cause]}: {name!r}"
    return _SENTENCES.get(cause, cause.value)
