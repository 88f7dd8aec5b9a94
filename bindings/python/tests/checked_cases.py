"""The cases of `tests/checks` of the repository, as its README.md says them, made on the disk; and what stands around each of their
manifests, gathered there as a program would gather it."""
from __future__ import annotations

import fnmatch
import os
import re
from collections.abc import Iterator
from pathlib import Path
from typing import Any, NamedTuple, Optional

from cargo_manifest import Diagnostic, Member, diagnostics
from cargo_manifest._around import document_of

from .places import TOP

FOLDER = TOP / "tests" / "checks"
MANIFEST = "Cargo.toml"
SECTIONS = ("dependencies", "dev-dependencies", "dev_dependencies", "build-dependencies", "build_dependencies")
CODE = re.compile(r"^\| \[`([a-z0-9-]+)`\]\(#[a-z0-9-]+\) \| (error|warning|note)", re.M)
EXPECTED = re.compile(r"(?:(.+): )?([a-z0-9-]+) (\d+):(\d+|\*)(?: (error|warning|note))?")


class Told(NamedTuple):
    """A diagnostic: its file, its line and column from 1 on (a column of 0 is any one), its code, its level and its message."""

    file: str
    line: int
    column: int
    code: str
    level: str
    message: str


class Case(NamedTuple):
    """One case: its file and its name, the options of the program, the files by their paths, and what is expected."""

    name: str
    options: list[str]
    files: dict[str, bytes]
    expected: list[Told]


def _levels() -> dict[str, str]:
    """The levels of the codes, as the tables of docs/CHECKS.md have them."""
    page = TOP / "docs" / "CHECKS.md"
    return dict(CODE.findall(page.read_text(encoding="utf-8")))


def _told_of(line: str, manifest: str, levels: dict[str, str]) -> Told:
    found = EXPECTED.fullmatch(line)
    assert found is not None, line
    file, code, number, column, level = found.groups()
    return Told(file or manifest, int(number), 0 if column == "*" else int(column), code, level or levels[code], "")


def _expected_diagnostics(text: str, manifest: str, levels: dict[str, str]) -> list[Told]:
    """The diagnostics of the part `expected`. Below each stands its text, whose first line is its message."""
    expected: list[Told] = []
    for line in filter(None, text.split("\n")):
        if not line.startswith("    "):
            expected.append(_told_of(line, manifest, levels))
        elif not expected[-1].message:
            expected[-1] = expected[-1]._replace(message=line[4:])
    return sorted(expected)


def _case_of(file: str, block: str, levels: dict[str, str]) -> Case:
    """The case of a block of lines, whose first one is its name."""
    head, *parts = block.split("\n--- ")
    options = re.findall("^options: (.*)$", head, re.M)
    files, expected = {}, []
    for part in parts:
        name, end, text = part.partition("\n")
        if name == "expected":
            manifest = next(path for path in files if path.endswith(MANIFEST))
            expected = _expected_diagnostics(text, manifest, levels)
        elif name.endswith(", escaped"):
            held = text.encode("ascii").decode("unicode_escape").encode("latin-1")
            files[name[: -len(", escaped")]] = held
        else:
            files[name] = (text + end).encode()
    return Case(f"{file}: {head.partition(chr(10))[0]}", options[0].split() if options else [], files, expected)


def cases() -> Iterator[Case]:
    """All cases; none where the package stands without the repository."""
    levels = _levels() if FOLDER.is_dir() else {}
    for file in sorted(FOLDER.glob("*.cases")):
        text = "\n" + file.read_text(encoding="utf-8")
        yield from (_case_of(file.name, block, levels) for block in text.split("\n=== ")[1:])


def _get(value: Any, *keys: str) -> Any:
    """What stands at these keys, in tables; None where there is nothing."""
    for key in keys:
        value = value.get(key) if isinstance(value, dict) else None
    return value


def _texts(value: Any) -> list[str]:
    return [item for item in value if isinstance(item, str)] if isinstance(value, list) else []


def _tables(value: Any) -> list[Any]:
    return list(value.values()) if isinstance(value, dict) else []


def _dependencies(document: Any) -> list[tuple[str, Any]]:
    """The dependencies of a package, each by its name."""
    holders = [document, *_tables(_get(document, "target"))]
    tables = [_get(holder, section) for holder in holders for section in SECTIONS]
    return [item for table in tables if isinstance(table, dict) for item in table.items()]


def _is_inherited(dependency: Any) -> bool:
    return _get(dependency, "workspace") is True


def _written_paths(document: Any) -> list[str]:
    """The `path`s of dependencies that the rules look at, as they are written."""
    own = [dependency for _, dependency in _dependencies(document) if not _is_inherited(dependency)]
    shared = _tables(_get(document, "workspace", "dependencies")) + _tables(_get(document, "replace"))
    patches = [dependency for patch in _tables(_get(document, "patch")) for dependency in _tables(patch)]
    return sorted(set(_texts([_get(dependency, "path") for dependency in own + shared + patches])))


class Tree:
    """The folder of a case on the disk."""

    def __init__(self, top: Path, case: Case) -> None:
        self.top = top
        self.case = case
        for name, held in case.files.items():
            file = top / name
            file.parent.mkdir(parents=True, exist_ok=True)
            if name.endswith("/"):
                file.mkdir()
            else:
                file.write_bytes(held)

    def _document(self, folder: str) -> Any:
        """The document of the manifest in a folder; None where there is none."""
        manifest = Path(folder, MANIFEST)
        return document_of(manifest.read_bytes()) if manifest.is_file() else None

    def _excludes(self, root: str, document: Any, folder: str) -> bool:
        """Whether a root leaves a folder out."""
        def is_under(key: str) -> bool:
            listed = [os.path.normpath(f"{root}/{path}") for path in _texts(_get(document, "workspace", key))]
            return any(f"{folder}/".startswith(f"{path}/") for path in listed)

        return not is_under("members") and is_under("exclude")

    def _root_of(self, folder: str, document: Any) -> Optional[str]:
        """The folder of the root of the manifest in this folder, which is no root itself."""
        above, found = folder, document
        while True:
            pointer = _get(found, "package", "workspace")
            if _get(found, "workspace") is not None and not self._excludes(above, found, folder):
                return above
            if isinstance(pointer, str) and _get(found, "workspace") is None:
                root = os.path.normpath(f"{above}/{pointer}")
                return root if _get(self._document(root), "workspace") is not None else None
            if above == str(self.top):
                return None
            above = os.path.dirname(above)
            found = self._document(above)

    def _led_to(self, root: str, shared: Any, folder: str) -> list[str]:
        """The folders to which the dependencies of the manifest in a folder lead, by a `path` of their own or of the root's."""
        folders = []
        for name, dependency in _dependencies(self._document(folder)):
            path, start = _get(dependency, "path"), folder
            if _is_inherited(dependency):
                path, start = _get(shared, "workspace", "dependencies", name, "path"), root
            if isinstance(path, str):
                folders.append(os.path.normpath(f"{start}/{path}"))
        return folders

    def _expanded(self, root: str, pattern: str) -> list[str]:
        """The folders, and files, that a pattern leads to."""
        found = [root]
        for part in os.path.normpath(pattern).split("/"):
            if not re.search(r"[*?[]", part):
                found = [os.path.normpath(f"{folder}/{part}") for folder in found]
                continue
            inside = [(folder, name) for folder in found if os.path.isdir(folder) for name in sorted(os.listdir(folder))]
            found = [f"{folder}/{name}" for folder, name in inside if fnmatch.fnmatchcase(name, part)]
        return found

    def _members(self, root: str, document: Any) -> dict[str, tuple[int, ...]]:
        """The folders of the members of a root, each with the indexes of the patterns that lead to it."""
        found: dict[str, tuple[int, ...]] = {}
        following = self._led_to(root, document, root)
        for index, pattern in enumerate(_texts(_get(document, "workspace", "members"))):
            for folder in self._expanded(root, pattern):
                is_member = Path(folder, MANIFEST).is_file() or bool(re.search(r"[*?[]", pattern)) and os.path.isdir(folder)
                if folder == root or self._excludes(root, document, folder):
                    continue
                if folder in found:
                    found[folder] += (index,)
                elif is_member:
                    following += self._led_to(root, document, folder)
                    found[folder] = (index,)
        while following:
            folder = following.pop()
            is_member = folder.startswith(f"{root}/") and Path(folder, MANIFEST).is_file() and folder not in found
            if is_member and not self._excludes(root, document, folder):
                following += self._led_to(root, document, folder)
                found[folder] = ()
        return found

    def _member(self, root: str, folder: str, patterns: tuple[int, ...]) -> Member:
        manifest = Path(folder, MANIFEST)
        return Member(os.path.relpath(folder, root), manifest if manifest.is_file() else None, patterns)

    def diagnostics(self, manifest: Path) -> list[Diagnostic]:
        """What is wrong with a manifest of the case."""
        folder = str(manifest.parent)
        document = self._document(folder)
        around: dict[str, Any] = {"publish": "--publish" in self.case.options}
        config = self.top / ".cargo" / "config.toml"
        if config.is_file():
            around["config"] = config
        around["packages"] = {
            path: name if isinstance(name, str) else None
            for path in _written_paths(document)
            for name in [_get(self._document(os.path.normpath(f"{folder}/{path}")), "package", "name")]
        }
        if _get(document, "workspace") is not None:
            members = self._members(folder, document).items()
            around["members"] = [self._member(folder, *member) for member in members]
            return diagnostics(manifest, **around)
        root = self._root_of(folder, document)
        if root is None:
            return diagnostics(manifest, root=False, **around)
        above = self._document(root)
        patterns = _texts(_get(above, "workspace", "members"))
        is_listed = any(folder in self._expanded(root, pattern) for pattern in patterns) or folder in self._members(root, above)
        return diagnostics(manifest, root=Path(root, MANIFEST), is_listed=is_listed, **around)

    def _denied(self, manifest: Path) -> list[str]:
        """The codes that the settings of a package deny, which the library leaves to the program that shows what is wrong."""
        return _texts(_get(self._document(str(manifest.parent)), "package", "metadata", "manifest-check", "deny"))

    def told(self) -> list[Told]:
        """What is wrong with each manifest of the case."""
        return [
            Told(name, each.line or 1, each.column or 1, each.code, "error" if each.code in denied else each.level, message)
            for name in self.case.files
            if name.rpartition("/")[2] == MANIFEST
            for denied in [self._denied(self.top / name)]
            for each in self.diagnostics(self.top / name)
            for message in [each.message.replace("\n", "\\n").replace("\t", "\\t")]
        ]
