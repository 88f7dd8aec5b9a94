"""Edits of a text that change what they say and keep all else: comments, order and layout."""
from __future__ import annotations

import ctypes
from collections.abc import Iterable, Sequence
from dataclasses import dataclass
from typing import Any, Literal, NamedTuple, Optional

from . import _library
from ._answer import answered
from ._library import broken, manifest_edited
from ._paths import KeyPath, Step
from ._reader import TEXT, Reader, utf8
from ._texts import Text, bytes_of

# the kinds of edits, in the order of their numbers
Kind = Literal["set", "insert", "remove", "rename"]
_KINDS: tuple[Kind, ...] = ("set", "insert", "remove", "rename")


@dataclass(frozen=True)
class Edit:
    """What is done to a text at a key path, as `("package", "authors", 0)`: made by `set`, `insert`, `remove` or `rename`.

    - `kind`: which of the four it is, as `"set"`.
    - `path`: the keys and indexes that lead to what it is about, in the text as it was before all edits.
    - `text`: the TOML text of a value, or of a renaming the key; of a removal it is empty.

    `toml_of` gives the TOML text of a value.

    >>> Edit.set(("package", "name"), '"b"')
    Edit(kind='set', path=('package', 'name'), text='"b"')
    >>> from cargo_manifest import toml_of
    >>> Edit.set(("package", "name"), toml_of("b"))
    Edit(kind='set', path=('package', 'name'), text='"b"')
    """

    __slots__ = ("kind", "path", "text")
    kind: Kind
    path: KeyPath
    text: str

    @classmethod
    def set(cls, path: Iterable[Step], toml: str) -> Edit:
        """Another value in the place of the one at the path: its range alone is replaced."""
        return _edit("set", path, toml)

    @classmethod
    def insert(cls, path: Iterable[Step], toml: str) -> Edit:
        """A new value. The path ends with its key, or with the index after the last item of an array. It stands after all that
        its table has, and before the comments of what follows; a table that headers only go through gets one at the end."""
        return _edit("insert", path, toml)

    @classmethod
    def remove(cls, path: Iterable[Step]) -> Edit:
        """The value at the path taken out, with its key and the rest of its line, or with one comma. With the last line of an
        array that has no comma after it goes the comma before it, and with a line between two blank ones one of these."""
        return _edit("remove", path, "")

    @classmethod
    def rename(cls, path: Iterable[Step], key: str) -> Edit:
        """Another key, in the place of the last one of the path: in each dotted key and each header that goes through it. It is
        passed in as it is, without quotes."""
        return _edit("rename", path, key)

    def __reduce__(self) -> tuple[Any, ...]:
        return type(self), (self.kind, self.path, self.text)


class Replacement(NamedTuple):
    """A text in the place of a range of bytes of the old text, from `start` up to `end`."""

    start: int
    end: int
    text: str


def _edit(kind: Kind, path: Iterable[Step], text: str) -> Edit:
    """An edit, of steps of the right types."""
    steps: KeyPath = () if isinstance(path, (str, bytes)) else tuple(path)
    if isinstance(path, (str, bytes)) or not all(_is_step(step) for step in steps):
        raise TypeError(f"the path of an edit has to be a tuple of keys and indexes, not {path!r}")
    if not isinstance(text, str):
        raise TypeError(f"what an edit puts in has to be a str with its text, not {type(text).__name__}")
    return Edit(kind, steps, text)


def _is_step(step: object) -> bool:
    return isinstance(step, str) or isinstance(step, int) and not isinstance(step, bool) and step >= 0


def edited(text: Text, edits: Iterable[Edit], *, most: Optional[int] = None) -> str:
    r"""The text with these edits. All else in it is as it was, to the byte: comments, order, quotes and line ends.

    Either all edits are made or none. Each path leads to where it does in the old text, in whatever order the edits are passed
    in. The new text says, as a document, what the old one does with these changes.

    `text` is as in `canonical`; it has to be TOML, and need not be a manifest. `most` is how many bytes the new text may take.

    Raises what `canonical` does of a text that is no TOML or nests too deep, and of a new text of more bytes than `most`; and
    `ManifestError` where an edit cannot be made: `Cause.NO_PLACE`, `Cause.NOT_A_VALUE`, `Cause.OVERLAP` and
    `Cause.NOT_EDITED` say why.

    >>> text = "[package]\nname = 'a' # for now\n\n# what it needs\n[dependencies]\nb = '1'\n"
    >>> edits = [
    ...     Edit.set(("package", "name"), '"c"'),
    ...     Edit.insert(("package", "edition"), '"2024"'),
    ...     Edit.rename(("dependencies", "b"), "d"),
    ... ]
    >>> print(edited(text, edits), end="")
    [package]
    name = "c" # for now
    edition = "2024"
    <BLANKLINE>
    # what it needs
    [dependencies]
    d = '1'
    """
    given, asked = bytes_of(text, "text"), list(edits)
    return utf8(_answered(given, asked, most, False))


def replacements(text: Text, edits: Iterable[Edit], *, most: Optional[int] = None) -> list[Replacement]:
    r"""What `edited` replaces, for an editor: ranges of the old text, in ascending order, each with what stands there then.

    Takes what `edited` takes, and raises what `edited` does. `most` is how many bytes the library may take to pass them on.

    >>> replacements("a = 1 # one\nb = 2\n", [Edit.set(("a",), "10"), Edit.remove(("b",))])
    [Replacement(start=4, end=5, text='10'), Replacement(start=12, end=18, text='')]
    """
    given, asked = bytes_of(text, "text"), list(edits)
    reader = Reader(_answered(given, asked, most, True))
    found = [replacement_in(reader) for _ in range(reader.array())]
    if not reader.is_at_end():
        raise broken()
    return found


def replacement_in(reader: Reader) -> Replacement:
    """A replacement, as the library gives it."""
    if reader.array() != len(Replacement._fields):
        raise broken()
    start, end = reader.whole_number(), reader.whole_number()
    reader.tag(TEXT)
    return Replacement(start, end, reader.text())


def _answered(text: bytes, edits: Sequence[Edit], most: Optional[int], as_replacements: bool) -> bytes:
    """What the library answers to edits: the new text, or the replacements as tagged bytes."""
    made = (_library.Edit * len(edits))(*(_of_library(edit) for edit in edits))
    # (each new entry may have a header of its own)
    room = sum(64 + 4 * len(edit.text) + sum(len(str(step)) for step in edit.path) for edit in edits)
    room += 0 if as_replacements else len(text)
    return answered(manifest_edited, most, text, made, len(edits), as_replacements, room=room)


def _of_library(edit: Edit) -> _library.Edit:
    """An edit as the library takes it. It keeps what it points to."""
    if not isinstance(edit, Edit):
        raise TypeError(f"an edit has to be an Edit, not {type(edit).__name__}")
    steps = (_library.Step * len(edit.path))(*map(_step, edit.path))
    return _library.Edit(_library.Path(steps, len(edit.path)), _bytes(edit.text), _KINDS.index(edit.kind))


def _step(step: Step) -> _library.Step:
    return _library.Step(_bytes(step), 0, False) if isinstance(step, str) else _library.Step(_bytes(""), step, True)


def _bytes(text: str) -> _library.Bytes:
    # (a lone surrogate becomes what is not UTF-8, which the library then refuses)
    held = text.encode("utf-8", "surrogatepass")
    return _library.Bytes(held, len(held))
