"""The calls, on manifests of all types that they take."""
import array
import tempfile
import unittest
from pathlib import Path

from cargo_manifest import Cause, ManifestError, canonical, completed, resolved, resolved_completed, table
from cargo_manifest import completed_table, resolved_completed_table, resolved_table

MEMBER = "[package]\nname = 'p-q'\nversion.workspace = true\nedition = '2021'\n"
ROOT = "[workspace.package]\nversion = '2.0.0'\n"
RESOLVED = '[package]\nedition = "2021"\nname = "p-q"\nversion = "2.0.0"\n'
LIB = (
    '[lib]\ncrate-type = ["lib"]\nedition = "2021"\nname = "p_q"\npath = "src/lib.rs"\nrequired-features = []\n\n'
)
FOLDERS = {"src": ["other.rs", "lib.rs"], ".": ["Cargo.toml"]}

# a manifest whose canonical text takes more room than most do
COUNT = 300
MANY = "package = { name = 'a' }\nbin = [" + "{ name = 'é' }," * COUNT + "]"
MANY_BINS = '[[bin]]\nname = "é"\nrequired-features = []\n\n' * COUNT


class PathText(str):
    """A text that says of itself that it is a path."""

    def __fspath__(self) -> str:
        return str(self)


class EachCall(unittest.TestCase):
    def test_canonical(self) -> None:
        self.assertEqual(canonical("edition = '2021'\nname = 'a'"), '[package]\nedition = "2021"\nname = "a"\n')
        self.assertEqual(canonical('[package]\nname = "a"\n'), '[package]\nname = "a"\n')

    def test_metadata_that_is_not_looked_at(self) -> None:
        text = "[package]\nname = 'p'\n[package.metadata]\na = [0, [1.5]]\n[workspace]\nmetadata = nan"
        empty = '[package]\nname = "p"\n\n[package.metadata]\n\n[workspace]\nmembers = []\n\n[workspace.metadata]\n'
        for call, given in ((canonical, ()), (completed, ({".": []},))):
            self.assertEqual(call(text, *given, metadata=False), empty)
            self.assertEqual(call("name = 'p'", *given, metadata=False), '[package]\nname = "p"\n')
        held = {"package": {"metadata": {}, "name": "p"}, "workspace": {"members": [], "metadata": {}}}
        self.assertEqual(table(text, metadata=False), held)
        for refuse in (canonical, table, lambda text: completed(text, {})):
            with self.assertRaises(ManifestError) as caught:
                refuse(text)
            self.assertIs(caught.exception.cause, Cause.HOLDS_FLOAT)
        for wrong in ("[package]", "a = '\ud800'", "a =", "a = " + "[" * 510):
            said = []
            for keyword in ({}, {"metadata": False}):
                with self.assertRaises(ManifestError) as caught:
                    canonical(wrong, **keyword)
                said.append((str(caught.exception), vars(caught.exception)))
            self.assertEqual(said[0], said[1])
        with self.assertRaises(ManifestError) as caught:
            canonical(text, metadata=False, most=10)
        self.assertIs(caught.exception.cause, Cause.TOO_LONG)

    def test_resolved(self) -> None:
        self.assertEqual(resolved(MEMBER, ROOT), RESOLVED)

    def test_completed(self) -> None:
        text = completed("[package]\nname = 'p-q'\nedition = '2021'\n", FOLDERS)
        self.assertEqual(text, LIB + '[package]\nedition = "2021"\nname = "p-q"\n')

    def test_resolved_completed(self) -> None:
        self.assertEqual(resolved_completed(MEMBER, ROOT, FOLDERS), LIB + RESOLVED)

    def test_table(self) -> None:
        wanted = {"package": {"name": "p", "autobins": False}}
        self.assertEqual(table("[package]\nname = 'p'\nautobins = false"), wanted)

    def test_the_other_tables(self) -> None:
        package = {"name": "p-q", "version": "2.0.0", "edition": "2021"}
        library = {"name": "p_q", "path": "src/lib.rs", "crate-type": ["lib"], "edition": "2021", "required-features": []}
        self.assertEqual(resolved_table(MEMBER, ROOT), {"package": package})
        self.assertEqual(resolved_completed_table(MEMBER, ROOT, FOLDERS), {"lib": library, "package": package})
        inherits = {**package, "version": {"workspace": True}}
        self.assertEqual(completed_table(MEMBER, FOLDERS), {"lib": library, "package": inherits})

    def test_a_text_that_takes_a_second_call(self) -> None:
        package = '[package]\nname = "a"\n'
        self.assertGreater(len(MANY_BINS), 2 * len(MANY) + 256)
        self.assertEqual(canonical(MANY), MANY_BINS + package)
        self.assertEqual(completed(MANY, {".": []}), MANY_BINS + package)
        self.assertEqual(resolved(MANY, "workspace = {}"), MANY_BINS + package)
        self.assertEqual(resolved_completed(MANY, "workspace = {}", {".": []}), MANY_BINS + package)
        bins = [{"name": "é", "required-features": []}] * COUNT
        self.assertEqual(table(MANY), {"bin": bins, "package": {"name": "a"}})


class WhatIsTaken(unittest.TestCase):
    def test_bytes_and_their_likes(self) -> None:
        text = MEMBER.encode("utf-8")
        between = bytes(byte for each in text for byte in (each, 255))
        items = array.array("I", (text + b"\n" * (-len(text) % 4)))
        likes = [
            text,
            bytearray(text),
            memoryview(text),
            memoryview(bytearray(text)),
            memoryview(bytearray(text)).toreadonly(),
            memoryview(between)[::2],
            memoryview(text[::-1])[::-1],
            memoryview(items),
        ]
        for like in likes:
            with self.subTest(like=like):
                self.assertEqual(resolved(like, ROOT), RESOLVED)
        root = memoryview(bytearray(ROOT.encode("utf-8")))
        self.assertEqual(resolved(MEMBER, root), RESOLVED)

    def test_files(self) -> None:
        with tempfile.TemporaryDirectory() as folder:
            file, root = Path(folder, "Cargo.toml"), Path(folder, "root.toml")
            file.write_text(MEMBER, encoding="utf-8")
            root.write_text(ROOT, encoding="utf-8")
            self.assertEqual(resolved(file, root), RESOLVED)
            self.assertEqual(resolved(PathText(file), root), RESOLVED)
            self.assertEqual(table(file)["package"]["name"], "p-q")
            with self.assertRaises(FileNotFoundError):
                canonical(Path(folder, "none.toml"))
            with self.assertRaises(FileNotFoundError):
                resolved(MEMBER, Path(folder, "none.toml"))
            with self.assertRaises(IsADirectoryError):
                table(Path(folder))

    def test_a_str_is_a_text_and_no_path(self) -> None:
        with self.assertRaises(ManifestError) as caught:
            canonical("Cargo.toml")
        self.assertIs(caught.exception.cause, Cause.NO_TOML)

    def test_what_is_no_manifest_at_all(self) -> None:
        for other in (None, 1, [MEMBER], {"package": {}}, object()):
            with self.subTest(other=other):
                for call in (canonical, table):
                    with self.assertRaisesRegex(TypeError, "the manifest has to be"):
                        call(other)  # type: ignore[operator]
                with self.assertRaisesRegex(TypeError, "the root has to be"):
                    resolved(MEMBER, other)  # type: ignore[arg-type]

    def test_empty(self) -> None:
        for empty in ("", b"", bytearray(), memoryview(b"")):
            with self.assertRaises(ManifestError) as caught:
                canonical(empty)
            self.assertEqual(str(caught.exception), "missing field `name`")

    def test_a_megabyte(self) -> None:
        long = "é" * (1 << 19)
        made = f"[package]\ndescription = \"{long}\"\nname = \"a\"\n"
        self.assertEqual(canonical(made), made)
        self.assertEqual(table(made), {"package": {"name": "a", "description": long}})
        with self.assertRaises(ManifestError) as caught:
            canonical(made + "=")
        self.assertEqual((caught.exception.line, caught.exception.column), (4, 1))

    def test_nul(self) -> None:
        for text, at in ((b"\0", 0), (b"name = 'a'\0", 10), (b"name = 'a'\n# b\0c", 14)):
            with self.subTest(text=text), self.assertRaises(ManifestError) as caught:
                canonical(text)
            self.assertIs(caught.exception.cause, Cause.NO_TOML)
            self.assertEqual(caught.exception.start, at)
        self.assertEqual(table('name = "a\\u0000b"'), {"package": {"name": "a\0b"}})

    def test_a_byte_order_mark(self) -> None:
        self.assertEqual(canonical("\ufeffname = 'a'"), '[package]\nname = "a"\n')

    def test_what_is_handed_in_stays_as_it_was(self) -> None:
        text, root = bytearray(MEMBER, "utf-8"), bytearray(ROOT, "utf-8")
        folders = {path: list(names) for path, names in FOLDERS.items()}
        resolved_completed(text, root, folders)
        self.assertEqual((text.decode(), root.decode(), folders), (MEMBER, ROOT, FOLDERS))
        text.append(0)  # (nothing holds it any more)
