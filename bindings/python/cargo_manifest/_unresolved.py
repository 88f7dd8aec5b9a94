"""What a member cannot inherit from its workspace, and declared targets without a file."""
from __future__ import annotations

from collections.abc import Iterable
from typing import Any, NamedTuple, Optional

from ._answer import answered
from ._cause import Cause
from ._library import broken, manifest_placed_refusals, manifest_placed_unfound_targets
from ._listings import Folders
from ._messages import message
from ._parts import FAULT, all_ranges_in, parts_in, step_in, text_in
from ._paths import KeyPath, Link, Step, link_of, path_of, text_of
from ._places import Located, Span
from ._positions import places_of
from ._reader import Reader
from ._refusal import UNRESOLVED_CAUSES
from ._texts import Text, bytes_of, listings_of


class Unresolved(Located):
    """What a member cannot inherit from the workspace of a root. Its text is one line.

    - `path`: the keys that lead to what inherits, in the member, as `("package", "version")` or `("lints",)`. The tuple is made
      each time.
    - `cause`: why, one of `Cause.NOT_IN_WORKSPACE`, `INHERITED_IN_WORKSPACE`, `MIXED_LINTS` and `TOOL_NAMED_WORKSPACE`.
    - `name`: of the first two of these the key or the name of what is not inherited; else None.
    - `span`, `key_span`, `header_span`, `line`, `column`: where it stands in the member, as a `Fault` has them.
    - `root_span`, `root_key_span`, `root_header_span`, `root_line`, `root_column`: where that stands in the root which the
      member asks for: `workspace.package.version`, `workspace.dependencies.serde`, `workspace.lints`; or the table in which it
      is missing.

    >>> refusal = Unresolved(("package", "version"), Cause.NOT_IN_WORKSPACE, "version")
    >>> print(refusal)
    `package.version`: `version` is inherited from the workspace, which does not define it
    """

    __slots__ = ("_link", "_cause", "_name", "_root")
    _link: Optional[Link]
    _cause: Cause
    _name: Optional[str]
    _root: Located

    def __init__(self, path: Iterable[Step], cause: Cause, name: Optional[str] = None) -> None:
        self._link, self._cause, self._name = link_of(path), cause, name
        self._place, self._root = b"", _located(b"")

    @classmethod
    def _of(cls, found: _Refused, place: bytes, root_place: bytes) -> Unresolved:
        """What is refused at a place, whose path is not made."""
        refused = cls.__new__(cls)
        refused._link, refused._cause, refused._name = found
        refused._place, refused._root = place, _located(root_place)
        return refused

    @property
    def path(self) -> KeyPath:
        return path_of(self._link)

    @property
    def cause(self) -> Cause:
        return self._cause

    @property
    def name(self) -> Optional[str]:
        return self._name

    @property
    def root_span(self) -> Optional[Span]:
        return self._root.span

    @property
    def root_key_span(self) -> Optional[Span]:
        return self._root.key_span

    @property
    def root_header_span(self) -> Optional[Span]:
        return self._root.header_span

    @property
    def root_line(self) -> Optional[int]:
        return self._root.line

    @property
    def root_column(self) -> Optional[int]:
        return self._root.column

    def _parts(self) -> tuple[KeyPath, Cause, Optional[str]]:
        return self.path, self.cause, self.name

    def __eq__(self, other: object) -> bool:
        if not isinstance(other, Unresolved):
            return NotImplemented
        return self._parts() == other._parts()

    def __hash__(self) -> int:
        return hash(self._parts())

    def __str__(self) -> str:
        return f"`{text_of(self.path)}`: {message(self.cause, None, self.name)}"

    def __repr__(self) -> str:
        return f"Unresolved(path={self.path!r}, cause={self.cause!r}, name={self.name!r})"

    def __reduce__(self) -> tuple[Any, ...]:
        return type(self), self._parts(), (None, {"_place": self._place, "_root": self._root})


class UnfoundTarget(Located):
    """A declared target for which the folders of a manifest have no file. Its text is one line.

    - `path`: `("lib",)`, or as `("bin", 1)`. The tuple is made each time.
    - `span`, `key_span`, `header_span`, `line`, `column`: where it stands, as a `Fault` has them.

    >>> print(UnfoundTarget(("bin", 1)))
    no file is found for `bin[1]`
    """

    __slots__ = ("_link",)
    _link: Optional[Link]

    def __init__(self, path: Iterable[Step]) -> None:
        self._link = link_of(path)
        self._place = b""

    @classmethod
    def _of(cls, path: Iterable[Step], place: bytes) -> UnfoundTarget:
        target = cls(path)
        target._place = place
        return target

    @property
    def path(self) -> KeyPath:
        return path_of(self._link)

    def __eq__(self, other: object) -> bool:
        if not isinstance(other, UnfoundTarget):
            return NotImplemented
        return self.path == other.path

    def __hash__(self) -> int:
        return hash(self.path)

    def __str__(self) -> str:
        return f"no file is found for `{text_of(self.path)}`"

    def __repr__(self) -> str:
        return f"UnfoundTarget(path={self.path!r})"

    def __reduce__(self) -> tuple[Any, ...]:
        return type(self), (self.path,), (None, {"_place": self._place})


class _Refused(NamedTuple):
    """One refusal of a tree: the link of its path, its cause and its name."""

    link: Optional[Link]
    cause: Cause
    name: Optional[str]


def _located(place: bytes) -> Located:
    located = Located()
    located._place = place
    return located


def _refused_in(reader: Reader) -> list[_Refused]:
    """What is refused, in its order, of a tree of it that is read next."""

    def read(what: int, length: int, link: Optional[Link]) -> _Refused:
        if (what, length) != (FAULT, 3):
            raise broken()
        cause = UNRESOLVED_CAUSES.get(reader.whole_number())
        if cause is None:
            raise broken()
        name = text_in(reader)
        is_named = cause in (Cause.NOT_IN_WORKSPACE, Cause.INHERITED_IN_WORKSPACE)
        return _Refused(link, cause, name if is_named else None)

    return list(parts_in(reader, read))


def refusals(manifest: Text, root: Text, *, most: Optional[int] = None) -> list[Unresolved]:
    r"""All that a manifest cannot inherit from the workspace of a root, and why, where `resolved` reports the first alone; none
    where it puts in all that is inherited.

    They stand in this order: the fields of the package, `dependencies`, `dev-dependencies` and `build-dependencies`, the same
    three of each platform, and `lints`. Under an old header, or by a second spelling, as `dev_dependencies`, what inherits does
    not stand at the path of its refusal: its place is that of the table in which it would belong.

    `manifest` and `root` are as in `resolved`. `most` is how many bytes the library may take to pass the refusals on.

    Raises what `resolved` does of a manifest or a root that is not read, and of a root without a workspace.

    >>> member = "[package]\nname = 'a'\nversion.workspace = true\n[dependencies]\nlog = { workspace = true }\n"
    >>> for refusal in refusals(member, "[workspace.dependencies]\nlog.workspace = true\n"):
    ...     print(refusal)
    `package.version`: `version` is inherited from the workspace, which does not define it
    `dependencies.log`: the dependency `log` is inherited from the workspace, whose own entry says `workspace = true`
    >>> refusal.path, refusal.line, refusal.column, refusal.span, refusal.root_span
    (('dependencies', 'log'), 5, 7, Span(start=67, end=87), Span(start=25, end=28))
    """
    given, above = bytes_of(manifest, "manifest"), bytes_of(root, "root")
    reader = Reader(answered(manifest_placed_refusals, most, given, above, len(above), root=above))
    if reader.array() != 3:
        raise broken()
    found = _refused_in(reader)
    own, shared = (places_of(text, all_ranges_in(reader, len(found))) for text in (given, above))
    if not reader.is_at_end():
        raise broken()
    return [Unresolved._of(each, place, asked) for each, place, asked in zip(found, own, shared)]


def unfound_targets(
    manifest: Text, folders: Optional[Folders] = None, *, most: Optional[int] = None
) -> list[UnfoundTarget]:
    r"""The declared targets for which the folders have no file: the library, where `completed` refuses the manifest for it, and
    each binary, example, test or bench that it leaves without a path.

    The library is first, and then each list is in its order. A path that is declared is not looked up.

    `manifest` and `folders` are as in `completed`. `most` is how many bytes the library may take to pass the targets on.

    Raises what `completed` does, but not where the folder of the manifest itself cannot be listed, nor for a library without
    a file.

    >>> text = "[package]\nname = 'a'\nedition = '2021'\n[[bin]]\nname = 'b'\n[[bin]]\nname = 'c'\n"
    >>> unfound_targets(text, {"src/bin": ["b.rs"]})
    [UnfoundTarget(path=('bin', 1))]
    >>> [(target.line, target.span) for target in unfound_targets(text, {"src/bin": ["b.rs"]})]
    [(6, Span(start=57, end=64))]
    """
    given, listings = bytes_of(manifest, "manifest"), listings_of(manifest, folders)
    made = listings.folders()
    reader = Reader(answered(manifest_placed_unfound_targets, most, given, made, len(made), listings=listings))
    if reader.array() != 2:
        raise broken()
    paths = [[step_in(reader) for _ in range(reader.array())] for _ in range(reader.array())]
    places = places_of(given, all_ranges_in(reader, len(paths)))
    if not reader.is_at_end():
        raise broken()
    return [UnfoundTarget._of(path, place) for path, place in zip(paths, places)]
