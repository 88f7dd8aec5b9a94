"""What cannot be inherited, and targets without a file, each with its places: of texts in which these are looked for."""
import copy
import pickle
import tempfile
import unittest
from pathlib import Path
from typing import Any, Optional

from cargo_manifest import Cause, ManifestError, Span, UnfoundTarget, Unresolved, refusals, resolved, unfound_targets

from .test_places import Pieces, piece, pieces

NAME = "[package]\nname = 'a'\n"
NOTHING: Pieces = (None, None, None)
# the number with which the library tries the place of the first value: of a text that has it there no place is found
NUMBER = "[{}.metadata]\nx = -1000000000\n"

# members and roots, with the path, the cause and the name of each refusal, what stands at its span, key and header in the member, and
# at its span in the root
Wanted = tuple[tuple[Any, ...], Cause, Optional[str], Pieces, Optional[str]]
TEXTS: list[tuple[str, str, list[Wanted]]] = [
    (NAME, "[workspace]", []),
    (NAME + "version.workspace = true\n", "workspace.package.version = '1'", []),
    (
        NAME + "edition = { workspace = true }\nversion.workspace = true\n",
        "[workspace]\nmembers = ['a']\n[workspace.package]\nlicense = 'MIT'\n",
        [
            (
                ("package", "edition"), Cause.NOT_IN_WORKSPACE, "edition", ("{ workspace = true }", "edition", "[package]"),
                "[workspace.package]",
            ),
            (
                ("package", "version"), Cause.NOT_IN_WORKSPACE, "version", ("version", "version", "[package]"),
                "[workspace.package]",
            ),
        ],
    ),
    (
        NAME + "[dependencies]\none = { workspace = true }\n[dev-dependencies.two]\nworkspace = true\n"
        "[target.'cfg(unix)'.build-dependencies]\n'thr.ee'.workspace = true\n",
        "[workspace.dependencies]\n'é' = '1'\ntwo = { workspace = true }\n",
        [
            (
                ("dependencies", "one"), Cause.NOT_IN_WORKSPACE, "one", ("{ workspace = true }", "one", "[dependencies]"),
                "[workspace.dependencies]",
            ),
            (
                ("dev-dependencies", "two"), Cause.INHERITED_IN_WORKSPACE, "two",
                ("[dev-dependencies.two]", None, "[dev-dependencies.two]"), "{ workspace = true }",
            ),
            (
                ("target", "cfg(unix)", "build-dependencies", "thr.ee"), Cause.NOT_IN_WORKSPACE, "thr.ee",
                ("'thr.ee'", "'thr.ee'", "[target.'cfg(unix)'.build-dependencies]"), "[workspace.dependencies]",
            ),
        ],
    ),
    (
        NAME + "[lints]\nworkspace = true\n",
        "[workspace.lints.workspace]\nb = 'warn'\n",
        [(("lints",), Cause.TOOL_NAMED_WORKSPACE, None, ("[lints]", None, "[lints]"), "[workspace.lints.workspace]")],
    ),
    (
        "package.name = 'a'\nlints = { workspace = true, rust.b = 'warn' }\n",
        "workspace.resolver = '2'",
        [
            (("lints",), Cause.MIXED_LINTS, None, ("{ workspace = true, rust.b = 'warn' }", "lints", None), "workspace"),
            (
                ("lints",), Cause.NOT_IN_WORKSPACE, "lints", ("{ workspace = true, rust.b = 'warn' }", "lints", None),
                "workspace",
            ),
        ],
    ),
    (
        "[project]\nname = 'a'\nversion.workspace = true\n[dev_dependencies]\nb.workspace = true\n",
        "[workspace]",
        [
            (("package", "version"), Cause.NOT_IN_WORKSPACE, "version", NOTHING, "[workspace]"),
            (("dev-dependencies", "b"), Cause.NOT_IN_WORKSPACE, "b", NOTHING, "[workspace]"),
        ],
    ),
    (
        NUMBER.format("package") + NAME + "version.workspace = true\n",
        "[workspace]",
        [(("package", "version"), Cause.NOT_IN_WORKSPACE, "version", NOTHING, "[workspace]")],
    ),
    (
        NAME + "version.workspace = true\n",
        NUMBER.format("workspace"),
        [(("package", "version"), Cause.NOT_IN_WORKSPACE, "version", ("version", "version", "[package]"), None)],
    ),
]
MEMBER, ROOT = TEXTS[3][:2]


class Refusals(unittest.TestCase):
    def test_each_with_its_places(self) -> None:
        for member, root, wanted in TEXTS:
            with self.subTest(member=member, root=root):
                found = [
                    (each.path, each.cause, each.name, pieces(member, each), piece(root, each.root_span))
                    for each in refusals(member, root)
                ]
                self.assertEqual(found, wanted)

    def test_the_first_is_what_resolving_reports(self) -> None:
        for member, root, wanted in TEXTS:
            if not wanted:
                resolved(member, root)
                continue
            with self.subTest(member=member), self.assertRaises(ManifestError) as caught:
                resolved(member, root)
            first = refusals(member, root)[0]
            self.assertEqual((caught.exception.cause, caught.exception.name), (first.cause, first.name))
            self.assertTrue(str(first).endswith(str(caught.exception).removeprefix("root: ")))

    def test_lines_and_columns(self) -> None:
        one, two, three = refusals(MEMBER, ROOT)
        self.assertEqual((one.line, one.column, one.root_line, one.root_column), (4, 7, 1, 1))
        self.assertEqual((two.line, two.column, two.root_line, two.root_column), (5, 1, 3, 7))
        self.assertEqual((three.line, three.column), (8, 1))
        self.assertEqual((two.root_key_span, two.root_header_span), (Span(36, 39), Span(0, 24)))

    def test_copies(self) -> None:
        (_, two, _) = refusals(MEMBER, ROOT)
        for again in (copy.copy(two), copy.deepcopy(two), pickle.loads(pickle.dumps(two))):
            self.assertEqual((again, hash(again), again.span, again.root_span), (two, hash(two), two.span, two.root_span))
        made = Unresolved(two.path, Cause.INHERITED_IN_WORKSPACE, "two")
        self.assertEqual((made, made.span, made.root_span, made.root_line), (two, None, None, None))
        self.assertNotEqual(made, Unresolved(two.path, Cause.NOT_IN_WORKSPACE, "two"))
        self.assertNotEqual(made, two.path)
        said = "Unresolved(path=('a',), cause=<Cause.MIXED_LINTS: 'mixed lints'>, name=None)"
        self.assertEqual(repr(Unresolved(("a",), Cause.MIXED_LINTS)), said)
        with self.assertRaises(AttributeError):
            setattr(made, "path", ())

    def test_what_is_not_read(self) -> None:
        texts: list[tuple[Any, Any, Cause, str]] = [
            (b"\xff", "[workspace]", Cause.NOT_UTF8, "manifest"),
            (MEMBER, b"\xff", Cause.NOT_UTF8, "root"),
            ("[package]", b"\xff", Cause.MISSING, "manifest"),
            (MEMBER, "[package]", Cause.MISSING, "root"),
            (MEMBER, "[workspace", Cause.NO_TOML, "root"),
            (MEMBER, NAME, Cause.NO_WORKSPACE, "root"),
            (MEMBER, "a = " + "[" * 129, Cause.TOO_DEEP, "root"),
            ("[workspace.metadata]\na = 0.5", ROOT, Cause.HOLDS_FLOAT, "manifest"),
        ]
        for member, root, cause, part in texts:
            with self.subTest(member=member, root=root):
                said = []
                for call in (refusals, resolved):
                    with self.assertRaises(ManifestError) as caught:
                        call(member, root)
                    self.assertEqual((caught.exception.cause, caught.exception.part), (cause, part))
                    said.append((str(caught.exception), vars(caught.exception)))
                self.assertEqual(said[0], said[1])

    def test_the_bound(self) -> None:
        member = "package.name = 'a'\npackage.version.workspace = true"
        self.assertEqual(len(refusals(member, "[workspace]", most=77)), 1)
        with self.assertRaises(ManifestError) as caught:
            refusals(member, "[workspace]", most=76)
        self.assertIs(caught.exception.cause, Cause.TOO_LONG)

    def test_files(self) -> None:
        with tempfile.TemporaryDirectory() as folder:
            member, root = Path(folder, "member.toml"), Path(folder, "root.toml")
            member.write_text(MEMBER, encoding="utf-8")
            root.write_text(ROOT, encoding="utf-8")
            self.assertEqual(refusals(member, root), refusals(MEMBER, ROOT))
        with self.assertRaisesRegex(TypeError, "the root has to be"):
            refusals(MEMBER, None)  # type: ignore[arg-type]


TARGETS = (
    "lib = { name = 'l' }\n[package]\nname = 'a'\nedition = '2021'\n[[bin]]\nname = 'b'\npath = 'b.rs'\n\n[[bin]]\nname = 'c'\n\n"
    "[[example]]\nname = 'd'\n\n[[test]]\nname = 'e'\n\n[[bench]]\nname = 'f'\n"
)


class Unfound(unittest.TestCase):
    def test_each_with_its_place(self) -> None:
        found = unfound_targets(TARGETS, {})
        paths = [("lib",), ("bin", 1), ("example", 0), ("test", 0), ("bench", 0)]
        self.assertEqual([target.path for target in found], paths)
        self.assertEqual(pieces(TARGETS, found[0]), ("{ name = 'l' }", "lib", None))
        self.assertEqual([piece(TARGETS, each.span) for each in found[1:]], ["[[bin]]", "[[example]]", "[[test]]", "[[bench]]"])
        self.assertEqual([(each.line, each.column) for each in found], [(1, 7), (9, 1), (12, 1), (15, 1), (18, 1)])
        self.assertEqual(str(found[1]), "no file is found for `bin[1]`")

    def test_what_has_a_file(self) -> None:
        folders: dict[str, Any] = {"src": ["lib.rs"], "examples": ["d"], "examples/d": ["main.rs"], "tests": ["e.rs"]}
        folders["."] = OSError()
        self.assertEqual(unfound_targets(TARGETS, folders), [UnfoundTarget(("bin", 1)), UnfoundTarget(("bench", 0))])
        for text in (NAME, "[workspace]"):
            self.assertEqual(unfound_targets(text, {}), [])

    def test_places_that_are_not_found(self) -> None:
        (target,) = unfound_targets(NUMBER.format("package") + NAME + "[lib]\n", {})
        self.assertEqual((target.path, target.span, target.line), (("lib",), None, None))

    def test_folders_on_the_disk(self) -> None:
        with tempfile.TemporaryDirectory() as folder:
            file = Path(folder, "Cargo.toml")
            file.write_text(TARGETS, encoding="utf-8")
            Path(folder, "src").mkdir()
            Path(folder, "src", "lib.rs").touch()
            self.assertEqual(unfound_targets(file)[0].path, ("bin", 1))
            self.assertEqual(unfound_targets(TARGETS, folder), unfound_targets(file))

    def test_copies(self) -> None:
        target = unfound_targets(TARGETS, {})[1]
        for again in (copy.copy(target), copy.deepcopy(target), pickle.loads(pickle.dumps(target))):
            self.assertEqual((again, hash(again), again.span), (target, hash(target), target.span))
        self.assertEqual(repr(target), "UnfoundTarget(path=('bin', 1))")
        self.assertNotEqual(target, UnfoundTarget(("bin", 0)))
        self.assertNotEqual(target, target.path)

    def test_what_is_refused(self) -> None:
        fault = OSError("broken")
        with self.assertRaises(ManifestError) as caught:
            unfound_targets(TARGETS, {"src": fault})
        self.assertEqual((caught.exception.cause, caught.exception.name), (Cause.FOLDER_FAULT, "src"))
        self.assertIs(caught.exception.__cause__, fault)
        with self.assertRaises(MemoryError):
            unfound_targets(TARGETS, {"tests": MemoryError()})
        texts: list[tuple[Any, Any, Cause]] = [
            ("[package]", {}, Cause.MISSING),
            (b"\xff", {}, Cause.NOT_UTF8),
            (TARGETS, {"src": ["\ud800"]}, Cause.FOLDER_NOT_UTF8),
        ]
        for text, folders, cause in texts:
            with self.assertRaises(ManifestError) as caught:
                unfound_targets(text, folders)
            self.assertIs(caught.exception.cause, cause)
        with self.assertRaises(TypeError):
            unfound_targets(TARGETS)
        library = "package.name = 'a'\n\nlib = {}"
        self.assertEqual(len(unfound_targets(library, {}, most=29)), 1)
        with self.assertRaises(ManifestError) as caught:
            unfound_targets(library, {}, most=28)
        self.assertIs(caught.exception.cause, Cause.TOO_LONG)
