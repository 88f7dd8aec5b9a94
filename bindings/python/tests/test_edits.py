"""Edits of texts: what they make, what they replace, and what is refused."""
import copy
import datetime
import pickle
import tempfile
import tomllib
import unittest
from pathlib import Path
from typing import Any

from cargo_manifest import Cause, Edit, ManifestError, Replacement, edited, replacements, toml_of

from .edited_texts import ENTRIES, ITEMS, NEIGHBOURS, REMOVES, RENAMES, SETS, Row
from .test_refusals import NO_TOML, OfDepthAndLength

TEXT = """\
# the package
[package]
name = 'a' # for now
authors = ["b", 'é'] # two

# what it needs
[dependencies]
c = { version = "1", optional = true }
d.e = '2'
"""

# edits of TEXT, with what they replace and what they make of it
EDITS: list[tuple[list[Edit], str, str]] = [
    ([], "", ""),
    ([Edit.set(("package", "name"), '"x"')], "'a'", '"x"'),
    ([Edit.set(("package", "authors", 1), "1")], "'é'", "1"),
    ([Edit.set(("dependencies", "c"), "'3'")], '{ version = "1", optional = true }', "'3'"),
    ([Edit.set(("dependencies", "d", "e"), "{ a = [1, 2] }")], "'2'", "{ a = [1, 2] }"),
    ([Edit.insert(("package", "edition"), "'2024'")], "# two\n", "# two\nedition = '2024'\n"),
    ([Edit.insert(("dependencies", "c", "f g"), "1")], "true }", 'true, "f g" = 1 }'),
    ([Edit.insert(("package", "authors", 2), "'x'")], "'é']", "'é', 'x']"),
    ([Edit.remove(("package", "name"))], "name = 'a' # for now\n", ""),
    ([Edit.remove(("package", "authors", 0))], "\"b\", 'é'", "'é'"),
    ([Edit.remove(("package", "authors", 1))], "\"b\", 'é'", '"b"'),
    ([Edit.remove(("dependencies", "c", "optional"))], ", optional = true", ""),
    ([Edit.rename(("dependencies", "d"), "x y")], "d.e", '"x y".e'),
    ([Edit.rename(("dependencies",), "x")], "[dependencies]", "[x]"),
    ([Edit.rename(("dependencies", "d", "e"), "é")], "d.e", 'd."é"'),
]

REFUSED: list[tuple[list[Edit], Cause]] = [
    ([Edit.set(("package", "version"), "1")], Cause.NO_PLACE),
    ([Edit.set(("package",), "1")], Cause.NO_PLACE),
    ([Edit.set(("package", "authors", 2), "1")], Cause.NO_PLACE),
    ([Edit.set((), "1")], Cause.NO_PLACE),
    ([Edit.remove(("package", "version"))], Cause.NO_PLACE),
    ([Edit.rename(("package", "version"), "a")], Cause.NO_PLACE),
    ([Edit.rename(("package", "authors", 0), "a")], Cause.NO_PLACE),
    ([Edit.set(("package", "name"), "1\nb = 2")], Cause.NOT_A_VALUE),
    ([Edit.set(("package", "authors", 0), "3, 4")], Cause.NOT_A_VALUE),
    ([Edit.set(("package", "name"), "2 # x")], Cause.NOT_A_VALUE),
    ([Edit.set(("package", "name"), "")], Cause.NOT_A_VALUE),
    ([Edit.insert(("package", "version"), "x")], Cause.NOT_A_VALUE),
    ([Edit.insert(("package", "name"), "1")], Cause.NOT_EDITED),
    ([Edit.rename(("package", "name"), "authors")], Cause.NOT_EDITED),
    ([Edit.set(("dependencies", "c"), "1"), Edit.remove(("dependencies", "c", "optional"))], Cause.OVERLAP),
    ([Edit.set(("dependencies", "c"), "1"), Edit.set(("dependencies", "c"), "1")], Cause.OVERLAP),
]


def replaced(text: str, made: list[Replacement]) -> str:
    """The text with the replacements, from the last one on."""
    data = text.encode("utf-8")
    for each in reversed(made):
        data = data[: each.start] + each.text.encode("utf-8") + data[each.end :]
    return data.decode("utf-8")


class Edited(unittest.TestCase):
    def test_each_edit(self) -> None:
        for edits, old, new in EDITS:
            with self.subTest(edits=edits):
                self.assertEqual(TEXT.count(old), 1 if old else len(TEXT) + 1)
                wanted = TEXT.replace(old, new, 1)
                self.assertEqual(edited(TEXT, edits), wanted)
                self.assertEqual(edited(TEXT.replace("\n", "\r\n"), edits), wanted.replace("\n", "\r\n"))
                self.assertEqual(replaced(TEXT, replacements(TEXT, edits)), wanted)

    def test_several_in_any_order(self) -> None:
        edits = [
            Edit.remove(("package", "authors", 0)),
            Edit.set(("package", "authors", 1), "2"),
            Edit.rename(("package", "name"), "x"),
            Edit.set(("dependencies", "d", "e"), "1"),
            Edit.insert(("dependencies", "g"), "3"),
        ]
        wanted = TEXT.replace("name = ", "x = ").replace("\"b\", 'é'", "2").replace("'2'", "1") + "g = 3\n"
        for given in (edits, edits[::-1], edits[2:] + edits[:2], iter(edits), tuple(edits)):
            self.assertEqual(edited(TEXT, given), wanted)
        made = replacements(TEXT, edits)
        self.assertEqual(replaced(TEXT, made), wanted)
        self.assertEqual(made, sorted(made))
        self.assertLessEqual(len(made), len(edits))

    def test_a_thousand_at_once(self) -> None:
        text = "[dependencies]\n" + "".join(f"a{number} = '{number}' # {number}\n" for number in range(1000))
        edits = [Edit.set(("dependencies", f"a{number}"), f"'{'x' * 30}'") for number in range(1000)]
        wanted = "[dependencies]\n" + "".join(f"a{number} = '{'x' * 30}' # {number}\n" for number in range(1000))
        self.assertEqual(edited(text, edits), wanted)

    def test_what_was_empty(self) -> None:
        self.assertEqual(edited("", [Edit.insert(("a",), "1")]), "a = 1\n")
        self.assertEqual(edited("a = []", [Edit.insert(("a", 0), "1")]), "a = [1]")
        self.assertEqual(edited("[a.b]\n", [Edit.insert(("a", "c"), "2")]), "[a.b]\n\n[a]\nc = 2\n")

    def test_texts_of_all_types(self) -> None:
        edits, wanted = [Edit.set(("a",), "2")], "a = 2 # é\r\n"
        text = "a = 1 # é\r\n"
        with tempfile.TemporaryDirectory() as folder:
            file = Path(folder, "Cargo.toml")
            file.write_bytes(text.encode("utf-8"))
            likes: list[Any] = [text, text.encode("utf-8"), bytearray(text, "utf-8"), memoryview(text.encode("utf-8")), file]
            for like in likes:
                self.assertEqual(edited(like, edits), wanted)
                self.assertEqual(replacements(like, edits), [Replacement(4, 5, "2")])
            self.assertEqual(file.read_bytes(), text.encode("utf-8"))


def edit_of(row: Row) -> Edit:
    """The edit of a row of `edited_texts`."""
    kind, path, *text = row
    steps = [int(part[1:]) if part.startswith("#") else part for part in path.split(".")] if path else []
    made: Edit = getattr(Edit, kind)(steps, *text)
    return made


class OfEveryLayout(unittest.TestCase):
    def test_each_case(self) -> None:
        for text, rows, wanted in [*SETS, *ENTRIES, *ITEMS, *REMOVES, *NEIGHBOURS, *RENAMES]:
            edits = [edit_of(row) for row in rows]
            with self.subTest(text=text, rows=rows):
                if isinstance(wanted, str):
                    self.assertEqual(edited(text, edits), wanted)
                    self.assertEqual(replaced(text, replacements(text, edits)), wanted)
                    continue
                for call in (edited, replacements):
                    with self.assertRaises(ManifestError) as caught:
                        call(text, edits)
                    self.assertIs(caught.exception.cause, wanted)


class Values(unittest.TestCase):
    def test_each_is_read_as_it_is(self) -> None:
        zone = datetime.timezone(datetime.timedelta(hours=2))
        values: list[Any] = [
            "", "a b", "é\u2028\U0001f600", 'q"\\', "\b\t\n\f\r\x00\x1f\x7f", True, False, 0, -1, 2**63 - 1, 0.5, -1e300, float("inf"),
            datetime.datetime(2026, 1, 2, 3, 4, 5, 600, zone), datetime.datetime(2026, 1, 2), datetime.date(2026, 1, 2),
            datetime.time(3, 4), [], [[1], ["a"]], {}, {"a": {"b c": [{"": 1}]}, "é": 2},
        ]
        for value in values:
            with self.subTest(value=value):
                new = edited("a = 1 # one\n", [Edit.set(("a",), toml_of(value))])
                said = tomllib.loads(new)["a"]
                self.assertEqual(said, value)
                self.assertIs(type(said), type(value))
                self.assertTrue(new.endswith(" # one\n"))
        self.assertEqual(toml_of(("a", 1)), '["a", 1]')

    def test_what_is_no_type_of_toml(self) -> None:
        for value in (None, b"a", {1: 2}, [object()], {"a": None}):
            with self.subTest(value=value), self.assertRaises(TypeError):
                toml_of(value)


class Refused(unittest.TestCase):
    def refused(self, text: Any, edits: list[Edit], cause: Cause, **more: int) -> None:
        for call in (edited, replacements):
            with self.subTest(edits=edits, call=call), self.assertRaises(ManifestError) as caught:
                call(text, edits, **more)
            self.assertIs(caught.exception.cause, cause)
            self.assertEqual(len(str(caught.exception).splitlines()), 1)
            self.assertNotEqual(str(caught.exception), cause.value)

    def test_edits(self) -> None:
        for edits, cause in REFUSED:
            self.refused(TEXT, edits, cause)
            self.refused(TEXT, [Edit.set(("package", "name"), "1"), *edits][-len(edits) :], cause)

    def test_all_or_none(self) -> None:
        for edits, cause in REFUSED:
            if cause is not Cause.OVERLAP:
                self.refused(TEXT, [Edit.set(("dependencies", "d", "e"), "1"), *edits], cause)

    def test_texts(self) -> None:
        for text, *_ in NO_TOML:
            for edits in ([Edit.set(("a",), "1")], [Edit.set(("a",), "="), Edit.remove(("b",))], []):
                self.refused(text, edits, Cause.NO_TOML)
        for text in OfDepthAndLength.DEEP:
            self.refused(text, [], Cause.TOO_DEEP)
        for wrong in (b"\xff", "a = '\ud800'"):
            self.refused(wrong, [], Cause.NOT_UTF8)
        for edit in (Edit.set(("\ud800",), "1"), Edit.set(("a",), "'\ud800'"), Edit.rename(("a",), "\udcff")):
            self.refused("a = 1", [edit], Cause.NOT_UTF8)

    def test_the_bound(self) -> None:
        self.assertEqual(edited("a = 1", [Edit.set(("a",), "22")], most=6), "a = 22")
        self.refused("a = 1", [Edit.set(("a",), "22")], Cause.TOO_LONG, most=5)
        for most in ("1", True, -1):
            with self.assertRaises((TypeError, ValueError)):
                edited("", [], most=most)  # type: ignore[arg-type]


class OfAnEdit(unittest.TestCase):
    EDIT = Edit.insert(["package", "authors", 0], "'a'")

    def test_its_parts(self) -> None:
        self.assertEqual((self.EDIT.kind, self.EDIT.path, self.EDIT.text), ("insert", ("package", "authors", 0), "'a'"))
        self.assertEqual(Edit.remove(("a",)).text, "")
        self.assertEqual(repr(Edit.rename(("a",), "b")), "Edit(kind='rename', path=('a',), text='b')")

    def test_copies_and_equality(self) -> None:
        for again in (copy.copy(self.EDIT), copy.deepcopy(self.EDIT), pickle.loads(pickle.dumps(self.EDIT))):
            self.assertEqual((again, hash(again)), (self.EDIT, hash(self.EDIT)))
        self.assertNotEqual(self.EDIT, Edit.set(self.EDIT.path, self.EDIT.text))

    def test_it_is_not_changed(self) -> None:
        for name in ("kind", "path", "text", "other"):
            with self.assertRaises((AttributeError, TypeError)):
                setattr(self.EDIT, name, None)

    def test_wrong_types(self) -> None:
        wrong: list[Any] = ["package.name", b"a", ("a", None), ("a", True), ("a", -1), ("a", 0.5)]
        for path in wrong:
            with self.assertRaisesRegex(TypeError, "the path of an edit"):
                Edit.set(path, "1")
        for text in (b"1", 1, None):
            with self.assertRaisesRegex(TypeError, "has to be a str"):
                Edit.set(("a",), text)  # type: ignore[arg-type]
        with self.assertRaisesRegex(TypeError, "has to be an Edit"):
            edited("", [("a",)])  # type: ignore[list-item]
        with self.assertRaisesRegex(TypeError, "the text has to be"):
            edited(None, [])  # type: ignore[arg-type]
