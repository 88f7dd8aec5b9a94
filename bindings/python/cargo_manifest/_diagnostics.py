"""What is wrong with a manifest, and what of it is certain to be mended so."""
from __future__ import annotations

import ctypes
import os
from collections.abc import Iterable, Mapping
from dataclasses import dataclass
from typing import Any, Callable, Literal, NamedTuple, Optional, TypeVar, Union

from . import _library
from ._answer import checked, limit_of
from ._around import folders_named
from ._cause import Cause
from ._edits import Replacement, replacement_in
from ._error import ManifestError
from ._library import CheckRequest, broken
from ._listings import Folders, Listings
from ._parts import step_in, text_in
from ._paths import KeyPath
from ._places import Ranges, Span, ranges_or_none_in, span_in
from ._positions import positions_of
from ._reader import FALSE, TRUE, Reader
from ._texts import Text, bytes_of, given_listings

T = TypeVar("T")
Level = Literal["error", "warning", "note"]
File = Literal["manifest", "root", "member"]
_LEVELS: tuple[Level, ...] = ("error", "warning", "note")
_FILES: tuple[File, ...] = ("manifest", "root", "member")
# how many parts a diagnostic has
_PARTS = 9
# a byte order mark, which is in no column
_MARK = b"\xef\xbb\xbf"


class Member(NamedTuple):
    """A member of the workspace whose root is checked.

    - `path`: that of its folder from that of the root, as `"crates/a"`.
    - `manifest`: the text of its `Cargo.toml`, as in `diagnostics`; None where its folder has no such file.
    - `patterns`: the indexes in `workspace.members` of all patterns that lead to it, from the first one on: of
      `members = ["m", "./m"]` both; `()` where a `path` dependency leads to it.
    """

    path: str
    manifest: Optional[Text]
    patterns: tuple[int, ...] = ()


class Label(NamedTuple):
    """A second place, and what is said there.

    - `file`: `"manifest"`, `"root"` or `"member"`; of the last `member` is its index among those that were passed in.
    - `span`: where in that file, as offsets of bytes; None where it has no place.
    - `text`: what is said there.
    """

    file: File
    member: Optional[int]
    span: Optional[Span]
    text: str


class Suggestion(NamedTuple):
    """What can be written instead.

    - `text`: what to do, in words.
    - `is_certain`: whether it is certain to be what was meant, so that a program may make it (`fixed` does).
    - `replacements`: what it replaces in the manifest, as of `replacements`; empty where the words alone say what to do.
    """

    text: str
    is_certain: bool
    replacements: tuple[Replacement, ...]


@dataclass(frozen=True)
class Diagnostic:
    """One thing that is wrong with a manifest, or worth knowing of it. Its text has the level, the code and the message.

    - `code`: which of the codes it is, as `"unknown-feature"`; `docs/CHECKS.md` of the repository has a section for each.
    - `level`: `"error"`, what Cargo refuses; `"warning"`, what it warns of; `"note"`, what needs no change.
    - `message`: what is wrong. Few messages have more lines than one, as that of `"no-targets"`.
    - `path`: the keys and indexes that lead to it, as `("features", "default", 0)`; `()` where it is about a range of the text, or
      about the whole of it.
    - `span`: the range of bytes that is meant; None where it is the whole text, or has no place. `line` and `column` are where it
      begins, from 1, the column in characters. A byte order mark is in no column.
    - `key_span`, `header_span`: where the key and the header of the path stand.
    - `labels`: second places, each a `Label`.
    - `notes`: what is to be known in addition.
    - `suggestions`: what can be written instead, each a `Suggestion`.

    >>> text = "[package]\\nname = 'a'\\nversion = '0.1.0'\\nedition = '2021'\\n[features]\\ndefault = ['ful']\\nfull = []\\n"
    >>> found = diagnostics(text)[0]
    >>> print(found)
    error[unknown-feature]: feature `default` includes `ful` which is neither a dependency nor another feature
    >>> found.path, found.line, found.column, found.span
    (('features', 'default', 0), 6, 12, Span(start=78, end=83))
    >>> found.suggestions[0].text, found.suggestions[0].replacements
    ('write `full`', (Replacement(start=78, end=83, text='"full"'),))
    """

    code: str
    level: Level
    message: str
    path: KeyPath
    span: Optional[Span]
    line: Optional[int]
    column: Optional[int]
    key_span: Optional[Span]
    header_span: Optional[Span]
    labels: tuple[Label, ...]
    notes: tuple[str, ...]
    suggestions: tuple[Suggestion, ...]

    def __str__(self) -> str:
        return f"{self.level}[{self.code}]: {self.message}"


class _Read(NamedTuple):
    """The nine parts of a diagnostic."""

    code: str
    level: Level
    message: str
    path: KeyPath
    span: Optional[Span]
    ranges: Ranges
    labels: tuple[Label, ...]
    notes: tuple[str, ...]
    suggestions: tuple[Suggestion, ...]


def _items(reader: Reader, read: Callable[[Reader], T]) -> tuple[T, ...]:
    """The items of an array, which is next."""
    return tuple(read(reader) for _ in range(reader.array()))


def _word(words: tuple[T, ...], number: int) -> T:
    if number >= len(words):
        raise broken()
    return words[number]


def _label(reader: Reader) -> Label:
    if reader.array() != len(Label._fields):
        raise broken()
    file, member = _word(_FILES, reader.whole_number()), reader.whole_number()
    return Label(file, member if file == "member" else None, span_in(reader), text_in(reader))


def _suggestion(reader: Reader) -> Suggestion:
    if reader.array() != len(Suggestion._fields):
        raise broken()
    text, tag = text_in(reader), reader.byte()
    if tag not in (FALSE, TRUE):
        raise broken()
    return Suggestion(text, tag == TRUE, _items(reader, replacement_in))


def _read(reader: Reader) -> _Read:
    if reader.array() != _PARTS:
        raise broken()
    return _Read(
        text_in(reader),
        _word(_LEVELS, reader.whole_number()),
        text_in(reader),
        _items(reader, step_in),
        span_in(reader),
        ranges_or_none_in(reader),
        _items(reader, _label),
        _items(reader, text_in),
        _items(reader, _suggestion),
    )


def _read_all(held: bytes) -> list[_Read]:
    """The diagnostics that tagged bytes hold."""
    reader = Reader(held)
    found = list(_items(reader, _read))
    if not reader.is_at_end():
        raise broken()
    return found


def _diagnostics_of(text: bytes, held: bytes) -> list[Diagnostic]:
    """The diagnostics that tagged bytes hold, of a text, with lines and columns."""
    found = _read_all(held)
    starts = sorted({each.span.start for each in found if each.span is not None})
    # (of bytes that are not UTF-8, all before that place is)
    before = text[: starts[-1]] if starts else b""
    positions = dict(zip(starts, positions_of(before, starts))) if starts else {}
    marked = text.startswith(_MARK)
    made = []
    for each in found:
        position = None if each.span is None else positions[each.span.start]
        line, column = (None, None) if position is None else (position.line, position.characters + 1)
        if marked and line == 1 and column is not None:
            column = max(column - 1, 1)
        made.append(Diagnostic(
            each.code, each.level, each.message, each.path, each.span, line, column, each.ranges.key, each.ranges.header,
            each.labels, each.notes, each.suggestions,
        ))
    return made


def _encoded(text: str, what: str) -> bytes:
    """The UTF-8 of a path or a name. A lone surrogate becomes what is not UTF-8, which the library then refuses."""
    if not isinstance(text, str):
        raise TypeError(f"{what} has to be a str, not {type(text).__name__}")
    return text.encode("utf-8", "surrogatepass")


def _held(held: bytes) -> _library.Bytes:
    """Bytes as the library takes them, which keep what they point to."""
    return _library.Bytes(held, len(held))


def _array(kind: Any, items: Iterable[Any]) -> tuple[Any, int]:
    """Structs or numbers as the library takes them, and how many they are."""
    made = list(items)
    return (kind * len(made))(*made), len(made)


def _known(flag: Optional[bool]) -> int:
    """What is known of something: `enum manifest_known`."""
    return 0 if flag is None else 1 if flag else 2


def _member_of(member: Member) -> _library.Member:
    path, manifest, patterns = member
    held = b"" if manifest is None else bytes_of(manifest, "manifest of a member")
    indexes = _library.Indexes(*_array(ctypes.c_size_t, patterns))
    return _library.Member(_held(_encoded(path, "the path of a member")), _held(held), indexes, manifest is not None)


def _package_of(path: str, name: Optional[str]) -> _library.Package:
    held = b"" if name is None else _encoded(name, "the name of a package")
    return _library.Package(_held(_encoded(path, "the path of a package")), _held(held), name is not None)


def _listings(manifest: Text, given: bytes, folders: Optional[Folders]) -> Optional[Listings]:
    """The listings of the folders that are passed in, or else of the one that the manifest's file stands in, if it is one."""
    if folders is None and isinstance(manifest, os.PathLike):
        return Listings.of_folder(os.path.dirname(os.fsencode(manifest)), folders_named(given))
    return None if folders is None else given_listings(folders, folders_named(given))


def diagnostics(
    manifest: Text,
    *,
    root: Union[Text, Literal[False], None] = None,
    is_listed: Optional[bool] = None,
    folders: Optional[Folders] = None,
    members: Optional[Iterable[Member]] = None,
    packages: Optional[Mapping[str, Optional[str]]] = None,
    config: Optional[Text] = None,
    publish: bool = False,
    most: Optional[int] = None,
) -> list[Diagnostic]:
    r"""Everything that is wrong with a manifest: what Cargo refuses, what it warns of, and a few things that Cargo does not look
    at, as the program `manifest_check` of the repository reports it. First stands what `faults`, `ignored` and `unused_keys` find,
    and then what the rules say. Bytes that are not UTF-8, no TOML or nest too deep have one diagnostic, which says so.

    `manifest` is as in `canonical`. What stands around it is passed in as far as it is known, and the rules that need what is not
    passed in say nothing:

    - `root`: the manifest of the root of its workspace; or False where there is none in the folders above, nor where
      `package.workspace` leads to. It is not looked at where the manifest has a `workspace` itself: it is not refused then, and a
      label in the root has no span.
    - `is_listed`: whether that root lists the package, by a pattern or by a `path` dependency.
    - `folders`: as in `completed`. Of the path of a manifest it is the folder of that file, if it is left out; of any other
      manifest nothing is known of its folders then. What is not in a mapping is not there. Of a folder with another
      fault than a `FileNotFoundError` nothing is known, and nothing is said of the files in it.
    - `members`: each `Member` of the workspace, where the manifest is its root.
    - `packages`: the names of the packages to which the `path`s of its dependencies lead, by these paths as they are written;
      None in the place of a name where there is no package.
    - `config`: the configuration of Cargo, the text of `.cargo/config.toml`.
    - `publish`: whether to say also what a registry wants of a package that is published.

    `most` is how many bytes the library may take to pass on what is wrong.

    Raises `ManifestError` of a root that is no TOML or nests too deep, of a configuration that is (`Cause.CONFIGURATION`), of a
    path or a name with a lone surrogate, and of what is wrong in more bytes than `most`; the `OSError` of a file that cannot be
    read; and `MemoryError` where no memory is left.

    >>> text = "[package]\nname = 'a'\nversion = '0.1.0'\nedition = '2021'\nreadme = 'READ.md'\n"
    >>> folders = {".": ["Cargo.toml", "README.md", "src"], "src": ["lib.rs"]}
    >>> diagnostics(text, folders=folders)
    []
    >>> for found in diagnostics(text, folders=folders, publish=True):
    ...     print(found.line, found.level, found.code)
    1 warning missing-description
    1 warning missing-license
    1 warning missing-links
    5 warning missing-package-file
    """
    given = bytes_of(manifest, "manifest")
    request = CheckRequest(bytes=_held(given), most=limit_of(most), publishes=bool(publish), is_listed=_known(is_listed))
    above = b""
    if root is False:
        request.has_root = _known(False)
    elif root is not None:
        above = bytes_of(root, "root")
        request.root, request.has_root = _held(above), _known(True)
    if config is not None:
        request.config, request.has_config = _held(bytes_of(config, "configuration")), True
    listings = _listings(manifest, given, folders)
    if listings is not None:
        listed = listings.folders()
        request.folders, request.has_folders = (listed, len(listed)), True
    if members is not None:
        request.members, request.has_members = _array(_library.Member, map(_member_of, members)), True
    if packages is not None:
        named = (_package_of(path, name) for path, name in packages.items())
        request.packages, request.has_packages = _array(_library.Package, named), True
    return _diagnostics_of(given, checked(request, (given, above, listings)))


def _reach(suggestion: Suggestion) -> tuple[int, int]:
    """The bytes from the first that a suggestion replaces to the last."""
    return suggestion.replacements[0].start, suggestion.replacements[-1].end


def _fits(suggestion: Suggestion, length: int) -> bool:
    """Whether a suggestion can be made in this many bytes: its ranges are within them, ascend, and do not overlap."""
    last = 0
    for start, end, _ in suggestion.replacements:
        if not last <= start <= end <= length:
            return False
        last = end
    return bool(suggestion.replacements)


def fixed(manifest: Text, found: Iterable[Diagnostic]) -> str:
    r"""The text of a manifest with the certain suggestions of these diagnostics made, which are of this text: from the first place
    on, each that does not touch the one before.

    One may be possible only after another, so a program asks for the diagnostics of the new text again until nothing changes, and
    keeps the old one where an error has come that was not there before (as `manifest_check --fix` does).

    `manifest` is as in `canonical`. Raises `ManifestError` where it is not UTF-8, and the `OSError` of a file that cannot be read.

    >>> text = "[package]\nname = 'a'\nversion = '0.1.0'\nedition = '2021'\n\n[dev_dependencies]\nb = '1' # for tests\n"
    >>> print(fixed(text, diagnostics(text)), end="")
    [package]
    name = 'a'
    version = '0.1.0'
    edition = '2021'
    <BLANKLINE>
    [dev-dependencies]
    b = '1' # for tests
    """
    text = bytes_of(manifest, "manifest")
    certain = [
        suggestion
        for each in found
        for suggestion in each.suggestions
        if suggestion.is_certain and _fits(suggestion, len(text))
    ]
    last = -1
    chosen: list[Suggestion] = []
    for suggestion in sorted(certain, key=_reach):
        start, end = _reach(suggestion)
        if start > last:
            chosen.append(suggestion)
            last = end
    for suggestion in reversed(chosen):
        for replacement in reversed(suggestion.replacements):
            text = text[: replacement.start] + replacement.text.encode("utf-8") + text[replacement.end :]
    try:
        return text.decode("utf-8")
    except UnicodeDecodeError as fault:
        raise ManifestError(Cause.NOT_UTF8) from fault
