"""Folders: as mappings, and on the disk."""
import collections
import os
import tempfile
import unittest
from pathlib import Path
from types import MappingProxyType
from typing import Any
from unittest import mock

from cargo_manifest import Cause, ManifestError, completed, resolved_completed

from .places import make_files

TEXT = "[package]\nname = 'p'\nedition = '2021'\n"
FILES = ["Cargo.toml", "build.rs", "src/main.rs", "src/bin/b.rs", "src/bin/a/main.rs", "tests/t.rs", "docs/x.rs"]
WANTED = (
    "".join(
        f'[[bin]]\nedition = "2021"\nname = "{name}"\npath = "src/{path}"\nrequired-features = []\n\n'
        for name, path in (("a", "bin/a/main.rs"), ("b", "bin/b.rs"), ("p", "main.rs"))
    )
    + '[package]\nbuild = "build.rs"\nedition = "2021"\nname = "p"\n\n'
    + '[[test]]\nedition = "2021"\nname = "t"\npath = "tests/t.rs"\nrequired-features = []\n'
)
FOLDERS = {
    ".": ["src", "tests", "build.rs", "Cargo.toml"],
    "src": ["main.rs", "bin"],
    "src/bin": ["b.rs", "a"],
    "src/bin/a": ["main.rs"],
    "tests": ["t.rs"],
}


class Mappings(unittest.TestCase):
    def test_names_of_any_kind_in_any_order(self) -> None:
        for kind in (list, tuple, set, frozenset, iter, dict.fromkeys, collections.deque, lambda names: names + names):
            folders: dict[str, Any] = {path: kind(names) for path, names in FOLDERS.items()}
            self.assertEqual(completed(TEXT, folders), WANTED)
        self.assertEqual(completed(TEXT, MappingProxyType(FOLDERS)), WANTED)
        self.assertEqual(completed(TEXT, collections.ChainMap({}, FOLDERS)), WANTED)
        self.assertEqual(completed(TEXT, dict(reversed(list(FOLDERS.items())))), WANTED)

    def test_names_beyond_ascii(self) -> None:
        names = ["é.rs", "z.rs", "😀.rs", "\uffff.rs", "a\u0301.rs", "á.rs"]
        text = completed(TEXT, {".": [], "tests": names})
        found = [line for line in text.splitlines() if line.startswith("path")]
        # in the order of their UTF-8, which is that of their characters
        self.assertEqual(found, [f'path = "tests/{name}"' for name in sorted(names)])

    def test_folders_that_are_not_asked_for_change_nothing(self) -> None:
        more = {**FOLDERS, "docs": ["main.rs"], "src/bin/a/deeper": MemoryError(), "": [], "./src": ["lib.rs"]}
        self.assertEqual(completed(TEXT, more), WANTED)

    def test_many_names(self) -> None:
        names = [f"{number:05}.rs" for number in range(2_000)]
        text = completed(TEXT, {".": [], "tests": reversed(names)})
        found = [line for line in text.splitlines() if line.startswith("path")]
        self.assertEqual(found, [f'path = "tests/{name}"' for name in names])

    def test_what_is_no_mapping_of_names(self) -> None:
        bad: list[Any] = [
            {".": "Cargo.toml"},
            {".": b"Cargo.toml"},
            {".": None},
            {".": 1},
            {".": [b"Cargo.toml"]},
            {".": [Path("Cargo.toml")]},
            {".": OSError},
            {".": ValueError()},
            {b".": []},
            {Path("src"): []},
            [("src", [])],
            b"folder",
            1,
        ]
        for folders in bad:
            with self.subTest(folders=folders), self.assertRaises(TypeError):
                completed(TEXT, folders)

    def test_without_folders_a_path_is_wanted(self) -> None:
        with self.assertRaisesRegex(TypeError, "^without folders the manifest has to be a path"):
            completed(TEXT)
        with self.assertRaisesRegex(TypeError, "^without folders the manifest has to be a path"):
            resolved_completed(TEXT.encode("utf-8"), Path(__file__))


class OnTheDisk(unittest.TestCase):
    def setUp(self) -> None:
        room = tempfile.TemporaryDirectory()
        self.addCleanup(room.cleanup)
        self.folder = Path(room.name)
        make_files(self.folder, FILES)
        self.manifest = self.folder / "Cargo.toml"
        self.manifest.write_text(TEXT, encoding="utf-8")

    def test_the_folder_by_its_path_and_beside_the_manifest(self) -> None:
        self.assertEqual(completed(self.manifest), WANTED)
        self.assertEqual(resolved_completed(self.manifest, "workspace = {}"), WANTED)
        for folder in (self.folder, str(self.folder), f"{self.folder}/"):
            self.assertEqual(completed(TEXT, folder), WANTED)
        self.assertEqual(completed(self.manifest, {".": []}), '[package]\nedition = "2021"\nname = "p"\n')

    def test_a_bare_name_is_in_the_working_folder(self) -> None:
        before = os.getcwd()
        self.addCleanup(os.chdir, before)
        os.chdir(self.folder)
        self.assertEqual(completed(Path("Cargo.toml")), WANTED)
        self.assertEqual(completed(TEXT, "."), WANTED)
        os.chdir("src")
        self.assertEqual(completed(Path("../Cargo.toml")), WANTED)

    def test_which_folders_are_listed(self) -> None:
        asked: list[str] = []
        scan = os.scandir

        def noted(path: Any) -> Any:
            asked.append(os.path.relpath(os.fsdecode(path), self.folder))
            return scan(path)

        with mock.patch("os.scandir", noted):
            completed(self.manifest)
        entries = ["src/bin/a", "src/bin/b.rs"]
        self.assertEqual(asked, ["src", "src/bin", *entries, "examples", "tests", "tests/t.rs", "benches", "."])

    def test_a_name_that_is_not_utf8_is_left_out(self) -> None:
        tests = os.fsencode(self.folder / "tests")
        for name in (b"\xff.rs", b"\xed\xa0\x80.rs", b"\xc3.rs"):
            try:
                open(os.path.join(tests, name), "wb").close()
            except OSError:
                self.skipTest("the disk has no names that are not UTF-8")
        self.assertEqual(completed(self.manifest), WANTED)

    def test_a_folder_that_is_a_file(self) -> None:
        folder = self.folder / "other"
        make_files(folder, ["src", "tests"])
        self.refused(folder, Cause.FOLDER_FAULT, NotADirectoryError)
        (folder / "src").unlink()
        # (`tests` is a file still, which counts as nothing there)
        self.assertNotIn("[[test]]", completed(TEXT, folder))

    def test_a_folder_that_is_not_there(self) -> None:
        self.refused(self.folder / "none", Cause.FOLDER_NOT_FOUND, FileNotFoundError)

    def refused(self, folder: Path, cause: Cause, kind: type) -> None:
        with self.assertRaises(ManifestError) as caught:
            completed(TEXT, folder)
        self.assertIs(caught.exception.cause, cause)
        self.assertIsInstance(caught.exception.__cause__, kind)
