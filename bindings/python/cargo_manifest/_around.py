"""Which folders the paths of a manifest lead to."""
from __future__ import annotations

from collections.abc import Iterator
from typing import Any, Optional

from ._answer import answered
from ._error import ManifestError
from ._library import broken, manifest_document
from ._reader import DATE_TIME, Reader
from ._tagged import decoded, simple

# the tag of a float, which no table of a manifest has
_FLOAT = 9
_OF_PACKAGE = ("build", "license-file", "readme")


def _skip_date_time(reader: Reader) -> None:
    """Steps over a date-time: Python's own has not all of those that TOML has."""
    if reader.byte():
        reader.take(2)
        reader.number()
    if reader.byte():
        reader.take(2)
        reader.part(reader.byte)
        reader.part(reader.number)
    if reader.byte():
        kind = reader.byte()
        if kind > 2:
            raise broken()
        if kind:
            reader.number()


def _simple(reader: Reader, tag: int) -> Any:
    """A value that holds no other; None for those that name no file."""
    if tag == _FLOAT:
        reader.number()
        return None
    if tag == DATE_TIME:
        _skip_date_time(reader)
        return None
    return simple(reader, tag)


def _get(value: Any, key: str) -> Any:
    return value.get(key) if isinstance(value, dict) else None


def _paths_in(document: Any) -> Iterator[str]:
    """The paths of files that a document names."""
    for package in (_get(document, "package"), _get(document, "project")):
        yield from (_get(package, key) for key in _OF_PACKAGE)
    yield _get(_get(document, "lib"), "path")
    for key in ("bin", "example", "test", "bench"):
        targets = _get(document, key)
        for target in targets if isinstance(targets, list) else ():
            yield _get(target, "path")


def _plain(path: str) -> Optional[str]:
    """A path without `.` and without what a `..` takes back, where it stays in the folder from which it leads."""
    parts: list[str] = []
    if path.startswith("/"):
        return None
    for part in path.split("/"):
        if part == "..":
            if not parts:
                return None
            parts.pop()
        elif part not in ("", "."):
            parts.append(part)
    return "/".join(parts)


def document_of(manifest: bytes) -> Any:
    """The document that a text is, with None in the place of floats and date-times; None where it is not one."""
    try:
        return decoded(answered(manifest_document, None, manifest), _simple)
    except ManifestError:
        return None


def folders_named(manifest: bytes) -> list[bytes]:
    """The folders to which the paths of a manifest lead: of each that in which the file is, and the file as if it were one."""
    folders: list[bytes] = []
    for path in _paths_in(document_of(manifest)):
        plain = _plain(path) if isinstance(path, str) else None
        if plain:
            folders += [(plain.rpartition("/")[0] or ".").encode("utf-8"), plain.encode("utf-8")]
    return folders
