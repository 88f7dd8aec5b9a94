"""What is wrong with manifests: by the cases of the repository, and by bytes and texts that are written here."""
import copy
import pickle
import tempfile
import unittest
from pathlib import Path
from typing import Any, Optional

import cargo_manifest
from cargo_manifest import Cause, Diagnostic, Label, ManifestError, Member, Replacement, Span, Suggestion, diagnostics, fixed
from cargo_manifest import _diagnostics

from .checked_cases import Case, Told, Tree, cases
from .places import make_files

SOUND = "[package]\nname = 'a'\nversion = '0.1.0'\nedition = '2021'\n"
ROOT = "[workspace]\nresolver = '2'\n"
DEEP = "a = " + "[" * 129


def number(value: int) -> bytes:
    """A number in groups of seven bits, the lowest first."""
    return bytes([value]) if value < 128 else bytes([value & 127 | 128]) + number(value >> 7)


def tagged(value: Any) -> bytes:
    """The tagged bytes of a text, a whole number, a boolean or a list, as docs/LIBRARY.md says it."""
    if isinstance(value, bool):
        return b"\x05" if value else b"\x04"
    if isinstance(value, int):
        return b"\x02" + number(value)
    if isinstance(value, str):
        held = value.encode("utf-8")
        return b"\x01" + number(len(held)) + held
    return b"\x07" + number(len(value)) + b"".join(map(tagged, value))


PARTS: list[Any] = [
    "unknown-feature", 1, "what is wrong", ["features", "default", 2], [4, 9], [[4, 9], [], [0, 2]],
    [[0, 0, [1, 3], "here"], [1, 0, [], "there"], [2, 300, [0, 200], "in a member"]],
    ["one", "two"],
    [["write it", True, [[4, 5, "x"], [7, 7, ""]]], ["think of it", False, []]],
]


def read(parts: list[Any], text: bytes = b"0123456789") -> Diagnostic:
    """The diagnostic of these parts, of a text."""
    (one,) = _diagnostics._diagnostics_of(text, tagged([parts]))
    return one


def with_part(part: int, value: Any) -> list[Any]:
    return [*PARTS[:part], value, *PARTS[part + 1 :]]


class Read(unittest.TestCase):
    def test_each_part(self) -> None:
        found = read(PARTS)
        self.assertEqual((found.code, found.level, found.message), ("unknown-feature", "warning", "what is wrong"))
        self.assertEqual(found.path, ("features", "default", 2))
        self.assertEqual((found.span, found.key_span, found.header_span), (Span(4, 9), None, Span(0, 2)))
        self.assertEqual((found.line, found.column), (1, 5))
        labels = (
            Label("manifest", None, Span(1, 3), "here"),
            Label("root", None, None, "there"),
            Label("member", 300, Span(0, 200), "in a member"),
        )
        self.assertEqual((found.labels, found.notes), (labels, ("one", "two")))
        replaced = (Replacement(4, 5, "x"), Replacement(7, 7, ""))
        suggestions = (Suggestion("write it", True, replaced), Suggestion("think of it", False, ()))
        self.assertEqual(found.suggestions, suggestions)
        self.assertEqual(str(found), "warning[unknown-feature]: what is wrong")
        self.assertEqual(pickle.loads(pickle.dumps(found)), found)
        self.assertEqual(copy.deepcopy(found), found)
        self.assertEqual(hash(copy.copy(found)), hash(found))

    def test_what_is_about_the_whole_text(self) -> None:
        found = read([*PARTS[:3], [], [], [], [], [], []])
        self.assertEqual((found.path, found.span, found.line, found.column), ((), None, None, None))
        self.assertEqual((found.key_span, found.header_span, found.labels, found.suggestions), (None, None, (), ()))
        self.assertEqual(_diagnostics._diagnostics_of(b"", tagged([])), [])

    def test_lines_and_columns(self) -> None:
        def place(text: bytes, start: int) -> tuple[Optional[int], Optional[int]]:
            found = read(with_part(4, [start, start]), text)
            return found.line, found.column

        self.assertEqual(place("a\n'é' = 1".encode(), 7), (2, 5))
        self.assertEqual(place("\ufeffa = 1\nb".encode(), 3), (1, 1))
        self.assertEqual(place("\ufeffa = 1\nb".encode(), 9), (2, 1))
        self.assertEqual(place(b"ab\xff", 2), (1, 3))

    def test_other_bytes_are_none(self) -> None:
        wrong = [with_part(part, False) for part in range(9)] + [PARTS[:part] + PARTS[part + 1 :] for part in range(9)]
        wrong += [with_part(1, 3), with_part(4, [1]), with_part(5, [[], []]), with_part(6, [[3, 0, [], ""]])]
        wrong += [with_part(8, [["", 1, []]])]
        for parts in wrong:
            with self.assertRaises(RuntimeError, msg=str(parts)):
                read(parts)
        whole = tagged([PARTS])
        for held in (*(whole[:length] for length in range(len(whole))), whole + b"\0"):
            with self.assertRaises(RuntimeError):
                _diagnostics._diagnostics_of(b"0123456789", held)


def suggesting(*replaced: tuple[int, int, str], is_certain: bool = True) -> Diagnostic:
    """A diagnostic with a suggestion that replaces these ranges."""
    return read(with_part(8, [["", is_certain, list(map(list, replaced))]]))


class Fixed(unittest.TestCase):
    def test_suggestions_are_made(self) -> None:
        def made(*found: Diagnostic) -> str:
            return fixed("0123456789", found)

        self.assertEqual(made(), "0123456789")
        self.assertEqual(made(suggesting((2, 4, "ab")), suggesting((0, 1, ""))), "1ab456789")
        self.assertEqual(made(suggesting((1, 2, "a"), (5, 5, "b")), suggesting((7, 8, "c"))), "0a234b56c89")
        self.assertEqual(made(suggesting((2, 4, "ab"), is_certain=False), suggesting()), "0123456789")
        # of two that touch or overlap, the first one is made
        self.assertEqual(made(suggesting((2, 4, "b")), suggesting((1, 3, "a"))), "0a3456789")
        self.assertEqual(made(suggesting((2, 2, "a")), suggesting((2, 2, "b"))), "01a23456789")
        self.assertEqual(made(suggesting((1, 2, "a"), (8, 9, "b")), suggesting((4, 5, "c"))), "0a234567b9")
        self.assertEqual(made(suggesting((1, 2, "a")), suggesting((2, 3, "b"))), "0a23456789")
        # what is of another text is not made
        self.assertEqual(made(suggesting((9, 11, "a")), suggesting((5, 6, "a"), (3, 4, "b"))), "0123456789")

    def test_of_a_manifest(self) -> None:
        text = SOUND + "[dev_dependencies]\nb = '1' # for tests\n"
        new = fixed(text, diagnostics(text))
        self.assertEqual(new, SOUND + "[dev-dependencies]\nb = '1' # for tests\n")
        self.assertEqual(diagnostics(new), [])
        with self.assertRaises(ManifestError) as refused:
            fixed(b"\xff", [])
        self.assertIs(refused.exception.cause, Cause.NOT_UTF8)


def compared(told: list[Told], expected: list[Told]) -> list[Told]:
    """What is reported, in order, without the columns that are not compared."""
    free = {(each.file, each.line, each.code) for each in expected if each.column == 0}
    return sorted(each._replace(column=0) if (each.file, each.line, each.code) in free else each for each in told)


class Cases(unittest.TestCase):
    """Exactly what is expected is reported of each case of tests/checks. A root that cannot be read is passed in by no argument, so the
    cases that expect `unreadable-root` are left out."""

    def told(self, case: Case) -> list[Told]:
        with tempfile.TemporaryDirectory() as room:
            return Tree(Path(room).resolve(), case).told()

    def test_each_case(self) -> None:
        tried = left_out = 0
        for case in cases():
            if any(each.code == "unreadable-root" for each in case.expected):
                left_out += 1
                continue
            tried += 1
            with self.subTest(case.name):
                self.assertEqual(compared(self.told(case), case.expected), case.expected)
        print(f"{tried + left_out} cases, of which {left_out} are left out")
        self.assertTrue(tried == 0 or tried > 900 and left_out < 5, (tried, left_out))


def codes(text: Any, **around: Any) -> list[str]:
    return [each.code for each in diagnostics(text, **around)]


class Around(unittest.TestCase):
    def refused(self, **around: Any) -> ManifestError:
        with self.assertRaises(ManifestError) as refused:
            diagnostics(SOUND, **around)
        return refused.exception

    def test_what_is_not_passed_in_is_not_known(self) -> None:
        self.assertEqual(codes(SOUND), [])
        self.assertEqual(codes(SOUND, folders={}), ["no-targets"])
        self.assertEqual(codes(SOUND, root=False), [])
        self.assertEqual(codes(SOUND, root=ROOT), [])
        self.assertEqual(codes(SOUND, root=ROOT, is_listed=True), [])
        self.assertEqual(codes(SOUND, root=ROOT, is_listed=False), ["not-a-member"])
        wanted = ["missing-description", "missing-license", "missing-links"]
        self.assertEqual(codes(SOUND, publish=True), wanted)

    def test_a_path_has_its_folder(self) -> None:
        text = SOUND + "readme = './docs/READ.md'\n[[bin]]\nname = 'b'\npath = 'tools/b.rs'\n"
        with tempfile.TemporaryDirectory() as room:
            manifest = Path(room, "Cargo.toml")
            manifest.write_text(text, encoding="utf-8")
            self.assertEqual(codes(manifest), ["wrong-target-path"])
            self.assertIn("missing-package-file", codes(manifest, publish=True))
            make_files(Path(room), ["docs/READ.md", "tools/b.rs"])
            self.assertEqual(codes(manifest), [])
            self.assertNotIn("missing-package-file", codes(manifest, publish=True))
            self.assertEqual(codes(text, folders=room), [])
            self.assertEqual(codes(text, folders=Path(room, "docs")), ["wrong-target-path"])
            self.assertEqual(codes(manifest, folders={}), ["wrong-target-path"])

    def test_members_and_packages(self) -> None:
        root = "[workspace]\nmembers = ['a', 'b', 'c*']\nresolver = '2'\n"
        members = [Member("a", SOUND, (0,)), Member("b", SOUND.encode(), (1,)), Member("c", None, (2,))]
        told = codes(root, members=members)
        self.assertIn("missing-member", told)
        self.assertIn("repeated-package-name", told)
        self.assertEqual(codes(root), [])
        # each pattern has to lead to a member, and several may lead to one
        root = "[workspace]\nmembers = ['a', './a', '?']\nresolver = '2'\n"
        for patterns, wrong in [((0, 1, 2), []), ((0, 2), [1]), ((), [0, 1, 2])]:
            found = diagnostics(root, members=[Member("a", SOUND, patterns)])
            self.assertEqual([each.path for each in found], [("workspace", "members", index) for index in wrong])
            self.assertEqual({each.code for each in found}, {"missing-member"} if wrong else set())
        self.assertEqual(diagnostics(root, members=[Member("a", SOUND)]), found)
        with self.assertRaises(TypeError):
            codes(root, members=[Member("a", SOUND, ("a",))])  # type: ignore[arg-type]
        text = SOUND + "[dependencies]\nb = { path = '../b' }\n"
        self.assertEqual(codes(text, packages={"../b": "b"}), [])
        self.assertEqual(codes(text, packages={"../b": None}), ["missing-path-package"])
        self.assertEqual(codes(text), [])

    def test_the_root_of_a_root_is_not_looked_at(self) -> None:
        root = "[workspace]\nmembers = ['a']\n\n[workspace.lints.rust]\nunsafe_code = 'forbid'\n"
        own = SOUND + root
        found = diagnostics(own)
        self.assertEqual([each.code for each in found], ["lints-not-inherited"])
        for other in (b"\xff", "[workspace", DEEP, root):
            self.assertEqual(diagnostics(own, root=other, is_listed=False), found)
        self.assertEqual([label.span for each in found for label in each.labels], [None])

    def test_folders_with_faults(self) -> None:
        text = SOUND + "[[bin]]\nname = 'b'\npath = 'docs/b.rs'\n"
        listed: dict[str, Any] = {".": ["Cargo.toml", "docs", "src"], "src": ["lib.rs"]}
        self.assertEqual(codes(text, folders=listed), ["wrong-target-path"])
        self.assertEqual(codes(text, folders={**listed, "docs": FileNotFoundError()}), ["wrong-target-path"])
        for fault in (PermissionError(), OSError(), MemoryError()):
            self.assertEqual(codes(text, folders={**listed, "docs": fault}), [])
        # (the file, as if it were a folder)
        fault = NotADirectoryError()
        self.assertEqual(codes(text, folders={**listed, "docs": ["b.rs"], "docs/b.rs": fault}), [])
        self.assertEqual(codes(text, folders={**listed, "docs": ["c.rs"], "docs/b.rs": fault}), ["wrong-target-path"])

    def test_second_places_are_in_the_root(self) -> None:
        root = "[workspace]\nmembers = ['a']\n\n[workspace.lints.rust]\nunsafe_code = 'forbid'\n"
        (found,) = diagnostics(SOUND, root=root, is_listed=True)
        self.assertEqual((found.code, [label.file for label in found.labels]), ("lints-not-inherited", ["root"]))
        span = found.labels[0].span
        assert span is not None
        self.assertTrue(root[span.start : span.end])

    def test_bytes_that_are_no_document(self) -> None:
        for text, code, line, column in [
            (b"a = 1\nb = '\xff'", "not-utf8", 2, 6), ("[package]\nname = \n", "invalid-toml", 2, 8), (DEEP, "nests-too-deep", 1, 133),
        ]:
            (found,) = diagnostics(text)
            self.assertEqual((found.code, found.level, found.line, found.column), (code, "error", line, column))
            self.assertEqual((found.path, found.suggestions), ((), ()))
        # (what stands around it is not looked at)
        self.assertEqual(len(diagnostics("[", root=b"\xff", config=b"\xff")), 1)

    def test_what_is_refused(self) -> None:
        for root, cause in [(b"\xff", Cause.NOT_UTF8), ("[workspace", Cause.NO_TOML), (DEEP, Cause.TOO_DEEP)]:
            error = self.refused(root=root)
            self.assertEqual((error.cause, error.part), (cause, "root"))
        for config in (b"\xff", "a = ", DEEP):
            self.assertIs(self.refused(config=config).cause, Cause.CONFIGURATION)
        self.assertEqual(codes(SOUND, config="[profile.dev]\n"), [])
        self.assertIs(self.refused(folders={"\udcff": []}).cause, Cause.FOLDER_NOT_UTF8)
        self.assertIs(self.refused(members=[Member("\udcff", "")]).cause, Cause.NOT_UTF8)
        self.assertIs(self.refused(packages={"a": "\udcff"}).cause, Cause.NOT_UTF8)
        self.assertIs(self.refused(most=1).cause, Cause.TOO_LONG)
        self.assertEqual(codes(SOUND, most=2), [])
        with self.assertRaises(TypeError):
            codes(SOUND, folders=1)
        with self.assertRaises(TypeError):
            codes(SOUND, packages={"a": 1})
        with self.assertRaises(OSError):
            codes(Path("nowhere/Cargo.toml"))

    def test_it_is_public(self) -> None:
        for name in ("Diagnostic", "Label", "Member", "Suggestion", "diagnostics", "fixed"):
            self.assertIn(name, cargo_manifest.__all__)
