"""The calls of the package."""
from __future__ import annotations

from typing import Any, Optional

from ._answer import AS_TABLE, AS_TEXT, OF_TABLE, answered, asked
from ._library import manifest_table_without_metadata
from ._listings import Folders
from ._reader import utf8
from ._tagged import decoded
from ._texts import Text, bytes_of, listings_of


def _without_metadata(manifest: bytes) -> bytes:
    """The table of a manifest without what its metadata holds, as tagged bytes."""
    return answered(manifest_table_without_metadata, None, manifest)


def canonical(manifest: Text, *, most: Optional[int] = None, metadata: bool = True) -> str:
    r"""The canonical text of a manifest: only the keys that a manifest has, each by its first spelling, in one order.

    `manifest` is the text, as `bytes`, `bytearray`, `memoryview` or `str`; or the path of a file that is read, as
    `pathlib.Path`.

    `most` is how many bytes the canonical text may take, as UTF-8. Some kilobytes can mean many megabytes, as where a
    long key stands above many tables. What is compared is a bound on the length: the keys and the values, and a header
    of its whole path for each table.

    Metadata is kept as it is, and no float can be kept: one in it is refused as `Cause.HOLDS_FLOAT`. With `metadata=False`
    metadata is not looked at, and an empty table stands in its place.

    Raises `ManifestError` where the text is no manifest, nests too deep or could give more than `most`; the `OSError`
    of a file that cannot be read; and `MemoryError` where no memory is left.

    >>> print(canonical("name = 'a'\nedition = '2021'"), end="")
    [package]
    edition = "2021"
    name = "a"
    """
    given = bytes_of(manifest, "manifest")
    if not metadata:
        return utf8(asked(AS_TEXT, most, _without_metadata(given), form=OF_TABLE))
    return utf8(asked(AS_TEXT, most, given))


def completed(
    manifest: Text, folders: Optional[Folders] = None, *, most: Optional[int] = None, metadata: bool = True
) -> str:
    """The canonical text of a manifest, completed with the targets and the build script that its folders show.

    `manifest`, `most` and `metadata` are as in `canonical`. `folders` says what stands next to it, in one of three ways:

    - the path of the manifest's folder on the disk, a `str` or as `pathlib.Path`;
    - a mapping from the path of each folder, as `"src"` and `"src/bin"`, and `"."` for the manifest's own, to the names
      in it, in any order. In the place of the names there may be an `OSError` or a `MemoryError`: that folder's fault.
      What is not in the mapping is not there;
    - left out: it is the folder of the manifest's file, so the manifest has to be a path.

    No file is opened but the manifest's. Names on the disk that are not UTF-8 are left out.

    Raises what `canonical` does; `ManifestError` also where `src` or the manifest's folder cannot be listed (the
    `__cause__` is its fault), where a path or a name of the mapping is not UTF-8, and where a declared library has no
    file; `MemoryError` also where that is the fault of a folder; and `TypeError` where the folders are needed.

    >>> folders = {".": ["Cargo.toml", "build.rs", "src"], "src": ["lib.rs"]}
    >>> print(completed("package = { name = 'a-b', edition = '2021' }", folders), end="")
    [lib]
    crate-type = ["lib"]
    edition = "2021"
    name = "a_b"
    path = "src/lib.rs"
    required-features = []
    <BLANKLINE>
    [package]
    build = "build.rs"
    edition = "2021"
    name = "a-b"
    """
    given, listings = bytes_of(manifest, "manifest"), listings_of(manifest, folders)
    if not metadata:
        return utf8(asked(AS_TEXT, most, _without_metadata(given), listings=listings, form=OF_TABLE))
    return utf8(asked(AS_TEXT, most, given, listings=listings))


def resolved(manifest: Text, root: Text, *, most: Optional[int] = None) -> str:
    """The canonical text of a manifest, with what it inherits from its workspace put in.

    `manifest` and `most` are as in `canonical`, and so is `root`, the manifest that has the workspace.

    Raises what `canonical` does, for the root too: its errors have the `part` `"root"`. `ManifestError` is raised also
    where the root has no workspace, or where that does not have what is inherited.

    >>> root = "workspace.package.version = '2.0.0'"
    >>> print(resolved("package = { name = 'a', version.workspace = true }", root), end="")
    [package]
    name = "a"
    version = "2.0.0"
    """
    return utf8(asked(AS_TEXT, most, bytes_of(manifest, "manifest"), bytes_of(root, "root")))


def resolved_completed(
    manifest: Text, root: Text, folders: Optional[Folders] = None, *, most: Optional[int] = None
) -> str:
    """The canonical text of a manifest, first resolved as by `resolved` and then completed as by `completed`.

    Raises what these two do.

    >>> root = "workspace.package.edition = '2021'"
    >>> folders = {".": ["Cargo.toml", "src"], "src": ["main.rs"]}
    >>> print(resolved_completed("package = { name = 'a', edition.workspace = true }", root, folders), end="")
    [[bin]]
    edition = "2021"
    name = "a"
    path = "src/main.rs"
    required-features = []
    <BLANKLINE>
    [package]
    edition = "2021"
    name = "a"
    """
    given, above = bytes_of(manifest, "manifest"), bytes_of(root, "root")
    return utf8(asked(AS_TEXT, most, given, above, listings_of(manifest, folders)))


def table(manifest: Text, *, most: Optional[int] = None, metadata: bool = True) -> dict[str, Any]:
    r"""What the canonical text of a manifest says, by values, as `tomllib.loads` makes them of a text.

    These are `str`, `int`, `bool`, `list` and `dict`, and `datetime`, `date` and `time` of the module `datetime`. A
    date-time with an offset is aware, and others are naive. What a second has below its millionth part is cut off.
    They stand in one another 128 deep at most; of a text at most 80 of them are arrays and inline tables.

    `manifest` and `metadata` are as in `canonical`. `most` is how many bytes the table may take as the library returns it, where a
    key or a text of less than 128 bytes takes one or two more than its own.

    Raises what `canonical` does, and `ManifestError` with `Cause.DATE_BEYOND_PYTHON` for a date-time with the second
    60 or the year 0, which TOML has and `datetime` has not. Its `path` is that in the table.

    >>> table("name = 'a'\nmetadata = { since = 1979-05-27 }")
    {'package': {'metadata': {'since': datetime.date(1979, 5, 27)}, 'name': 'a'}}
    >>> table("name = 'a'\nmetadata = 0.5", metadata=False)
    {'package': {'metadata': {}, 'name': 'a'}}
    """
    given = bytes_of(manifest, "manifest")
    if not metadata:
        return _table_of(answered(manifest_table_without_metadata, most, given))
    return _table_of(asked(AS_TABLE, most, given))


def completed_table(
    manifest: Text, folders: Optional[Folders] = None, *, most: Optional[int] = None
) -> dict[str, Any]:
    """What the text of `completed` says, by values as in `table`.

    Takes what `completed` takes, with `most` as in `table`, and raises what `completed` and `table` do.

    >>> completed_table("name = 'a'", {".": ["build.rs"]})
    {'package': {'build': 'build.rs', 'name': 'a'}}
    """
    given = bytes_of(manifest, "manifest")
    return _table_of(asked(AS_TABLE, most, given, listings=listings_of(manifest, folders)))


def resolved_table(manifest: Text, root: Text, *, most: Optional[int] = None) -> dict[str, Any]:
    """What the text of `resolved` says, by values as in `table`.

    Takes what `resolved` takes, with `most` as in `table`, and raises what `resolved` and `table` do.

    >>> root = "workspace.package.version = '2.0.0'"
    >>> resolved_table("package = { name = 'a', version.workspace = true }", root)
    {'package': {'name': 'a', 'version': '2.0.0'}}
    """
    return _table_of(asked(AS_TABLE, most, bytes_of(manifest, "manifest"), bytes_of(root, "root")))


def resolved_completed_table(
    manifest: Text, root: Text, folders: Optional[Folders] = None, *, most: Optional[int] = None
) -> dict[str, Any]:
    """What the text of `resolved_completed` says, by values as in `table`.

    Takes what `resolved_completed` takes, with `most` as in `table`, and raises what `resolved_completed` and `table`
    do.

    >>> root = "workspace.package.version = '2.0.0'"
    >>> resolved_completed_table("package = { name = 'a', version.workspace = true }", root, {".": ["build.rs"]})
    {'package': {'build': 'build.rs', 'name': 'a', 'version': '2.0.0'}}
    """
    given, above = bytes_of(manifest, "manifest"), bytes_of(root, "root")
    return _table_of(asked(AS_TABLE, most, given, above, listings_of(manifest, folders)))


def _table_of(held: bytes) -> dict[str, Any]:
    """The table that tagged bytes hold."""
    made: dict[str, Any] = decoded(held)
    return made
