"""The causes for which a call refuses."""
from __future__ import annotations

import enum


class Cause(enum.Enum):
    """Why a call refuses. A cause equals its words: `Cause.MISSING == "missing"`."""

    NO_TOML = "no TOML"
    """The text is no TOML."""
    NOT_UTF8 = "not UTF-8"
    """The bytes are not UTF-8, or a `str` has a lone surrogate."""
    TOO_DEEP = "too deep"
    """Arrays and tables stand in one another more than 128 deep."""
    TOO_LONG = "too long"
    """What is asked for could take more bytes than `most`."""
    # (made by scripts/keys --write)
    WRONG_KIND = "wrong kind"
    """The value is of another kind, as a number for a text."""
    MISSING = "missing"
    """A required key is absent; the path ends with it."""
    TWO_SPELLINGS = "two spellings"
    """A table has a key by both spellings, as `default-features` and `default_features`."""
    NOT_A_CHOICE = "not a choice"
    """The text is none of those that may stand there, as `edition = "2020"`."""
    OUT_OF_RANGE = "out of range"
    """The whole number is too large or too small."""
    NOT_TRUE = "not true"
    """A boolean that has to be true is false."""
    HOLDS_FLOAT = "holds a float"
    """A value that is kept as it is, as metadata, holds a float."""
    METADATA = "metadata"
    """The type of the metadata refuses it; no call of the library has such a type."""
    FOLDER_NOT_FOUND = "folder not found"
    """The folder of the manifest is not there."""
    FOLDER_FAULT = "folder with a fault"
    """A folder that is asked for cannot be listed."""
    FOLDER_NOT_UTF8 = "folder whose path or names are not UTF-8"
    """The path of a folder, or a name in it, has a lone surrogate."""
    NO_LIBRARY_FILE = "library without a file"
    """The manifest declares a library, and no folder has a file for it."""
    NO_WORKSPACE = "no workspace"
    """The root has no table `workspace`."""
    NOT_IN_WORKSPACE = "not in workspace"
    """The manifest inherits what the workspace does not have."""
    INHERITED_IN_WORKSPACE = "inherited in workspace"
    """The manifest inherits a dependency that the workspace itself says to inherit."""
    MIXED_LINTS = "mixed lints"
    """The manifest inherits its lints, and has lints of a tool as well."""
    TOOL_NAMED_WORKSPACE = "tool named workspace"
    """The manifest inherits its lints, and the workspace has lints of a tool named `workspace`."""
    DATE_WITHOUT_TEXT = "date-time without a text"
    """A date-time is kept that no text can have. The calls here read texts, which have none, so that no call tells this."""
    NOT_A_VALUE = "not a value"
    """An edit only: the text that it puts in is not one value of TOML alone, as `1 # one`."""
    NO_PLACE = "no place"
    """An edit only: at its path nothing is that can be edited, or a table that is written by headers or dotted keys."""
    OVERLAP = "overlap"
    """An edit only: two edits touch one place, or one of them is within what another one replaces."""
    NOT_EDITED = "not edited"
    """An edit only: the new text would not be the document with the edits, as where a new key is there already."""
    CONFIGURATION = "configuration"
    """`diagnostics` only: the configuration of Cargo is no TOML, or nests too deep."""
    DATE_BEYOND_PYTHON = "date-time that Python cannot hold"
    """`table` only: a date-time with the second 60 or the year 0, which `datetime` does not have."""

    def __str__(self) -> str:
        return str(self.value)

    def __eq__(self, other: object) -> bool:
        return self is other or (isinstance(other, str) and self.value == other)

    def __hash__(self) -> int:
        return hash(self.value)
