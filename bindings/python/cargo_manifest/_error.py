"""Why a call refuses."""
from __future__ import annotations

from typing import Any, Literal, NamedTuple, Optional

from ._cause import Cause
from ._messages import message
from ._paths import KeyPath, steps_of

Part = Literal["manifest", "root"]


class Place(NamedTuple):
    """Where a text is no TOML: line and column from 1, and offsets of bytes from 0."""

    line: int
    column: int
    start: int
    end: int


def _remade(kind: type[ManifestError], words: tuple[Any, ...]) -> ManifestError:
    """An error as `pickle` and `copy` make it, which put in its attributes."""
    return kind.__new__(kind, *words)


class ManifestError(ValueError):
    """A manifest, its workspace's root or its folders are refused. Its text is one plain line.

    What does not apply is None.

    - `cause`: why, a `Cause`.
    - `part`: `"root"` where it is the root's text that has to be looked at, else `"manifest"`.
    - `path`: the keys and indexes that lead to the fault from the top of the text, as `("package", "authors", 0)`;
      `()` is the top itself. `path_text` has the same as a text of the library, as `package.authors[0]`.
    - `name`: the key of what is not in the workspace, the name of the dependency that the workspace inherits, or the path of
      the folder that cannot be listed.
    - `line`, `column`: where the text is no TOML, from 1, the column in characters.
    - `start`, `end`: the same place as offsets of bytes, from 0. Those of a `str` are of its UTF-8.

    >>> import cargo_manifest
    >>> try:
    ...     cargo_manifest.canonical("package = { name = 'a', authors = [true] }")
    ... except cargo_manifest.ManifestError as refused:
    ...     error = refused
    >>> str(error)
    'invalid type for `package.authors[0]`: expected a string'
    >>> error.cause is cargo_manifest.Cause.WRONG_KIND
    True
    >>> error.path
    ('package', 'authors', 0)
    """

    cause: Cause
    part: Part
    path: Optional[KeyPath]
    path_text: Optional[str]
    name: Optional[str]
    line: Optional[int]
    column: Optional[int]
    start: Optional[int]
    end: Optional[int]

    def __init__(
        self,
        cause: Cause,
        words: Optional[str] = None,
        *,
        part: Part = "manifest",
        place: Optional[Place] = None,
        path_text: Optional[str] = None,
        name: Optional[str] = None,
    ) -> None:
        path = None if path_text is None else steps_of(path_text)
        said = message(cause, path, name) if words is None else words
        if place is not None:
            said = f"line {place.line}, column {place.column}: {said}"
        super().__init__(f"root: {said}" if part == "root" else said)
        self.cause = cause
        self.part = part
        self.path = path
        self.path_text = path_text
        self.name = name
        self.line, self.column, self.start, self.end = place or (None, None, None, None)

    def __reduce__(self) -> tuple[Any, tuple[Any, ...], dict[str, Any]]:
        return _remade, (type(self), self.args), self.__dict__
