"""Where what is found stands in the text, and the lines and columns of offsets."""
import array
import copy
import pickle
import tempfile
import tracemalloc
import unittest
from pathlib import Path
from typing import Any, Optional

from cargo_manifest import Cause, Fault, ManifestError, Position, Span, UnusedKey, canonical, faults, ignored, positions
from cargo_manifest import unused_keys
from cargo_manifest._places import Located

Pieces = tuple[Optional[str], Optional[str], Optional[str]]

# documents, with what stands at the span, the key and the header of the first thing that is found, and its line and column
DOCUMENTS: list[tuple[str, Pieces, Optional[int], Optional[int]]] = [
    ("", (None, None, None), None, None),
    ("x = 1\nname = true", ("true", "name", None), 2, 8),
    ("[package]\r\n 'name' = +1 # 1\r\n", ("+1", "'name'", "[package]"), 2, 11),
    ("[package]\nname.a . b = 1", ("name", "name", "[package]"), 2, 1),
    ("[package]\nname = { a.b = 1 }", ("{ a.b = 1 }", "name", "[package]"), 2, 8),
    ("package.name = 1", ("1", "package.name", None), 1, 16),
    ("[package]\nversion = '1'", ("[package]", None, "[package]"), 1, 1),
    ("package . version = '1'", ("package", "package", None), 1, 1),
    ("a = 1\n[ package . metadata ]\n", ("[ package . metadata ]", None, "[ package . metadata ]"), 2, 1),
    ("name = 'a'\nauthors = [\n  'é', # 1\n  'é', 1,\n]", ("1", None, None), 4, 8),
    ("name = 'a'\n[version.a]\n[version]", ("[version]", None, "[version]"), 3, 1),
    ("[package]\nname = 'a'\n[[bin]]\n[[ bin ]]\nname = 1", ("1", "name", "[[ bin ]]"), 5, 8),
    ("[package]\nname = 'a'\n[[bin]]\n[[lib]]\n[[lib]]", ("[[lib]]", None, "[[lib]]"), 4, 1),
    ("\ufeff[package]\nname = \"\"\"\n\n\"\"\"\nversion = 1", ("1", "version", "[package]"), 5, 11),
    ("[package]\nname = 'a'\n[dependencies]\n'😀' = { version = '😀', path = 1 }", ("1", "path", "[dependencies]"), 4, 31),
]


def piece(text: str, span: Optional[Span]) -> Optional[str]:
    return None if span is None else text.encode("utf-8")[span.start : span.end].decode("utf-8")


def pieces(text: str, found: Located) -> Pieces:
    return piece(text, found.span), piece(text, found.key_span), piece(text, found.header_span)


class Places(unittest.TestCase):
    def test_the_first_fault(self) -> None:
        for text, wanted, line, column in DOCUMENTS:
            with self.subTest(text=text):
                fault = faults(text)[0]
                self.assertEqual(pieces(text, fault), wanted)
                self.assertEqual((fault.line, fault.column), (line, column))

    def test_a_str_and_its_bytes(self) -> None:
        for text, *_ in DOCUMENTS:
            of_str, of_bytes = faults(text)[0], faults(text.encode("utf-8"))[0]
            self.assertEqual((of_str.span, of_str.column), (of_bytes.span, of_bytes.column))

    def test_what_is_ignored_and_what_nothing_reads(self) -> None:
        text = "[package]\nname = 'a'\nedtion = '2021'\n[badges]\ngitlab = 1\n[dependecies.a]\nb = 1"
        (badge,) = ignored(text)
        self.assertEqual((pieces(text, badge), badge.line, badge.column), (("1", "gitlab", "[badges]"), 5, 10))
        edition, dependencies = unused_keys(text)
        self.assertEqual((pieces(text, edition), edition.line), (("'2021'", "edtion", "[package]"), 3))
        self.assertEqual((pieces(text, dependencies), dependencies.line), (("[dependecies.a]", None, "[dependecies.a]"), 6))

    def test_two_spellings(self) -> None:
        text = "name = 'a'\n[dependencies.b]\ndefault_features = 1\ndefault-features = 2"
        (fault,) = faults(text)
        self.assertEqual((fault.cause, pieces(text, fault)), ("two spellings", ("2", "default-features", "[dependencies.b]")))

    def test_what_is_made_by_hand_has_none(self) -> None:
        for made in (Fault(("a",), Cause.MISSING), UnusedKey(("a",))):
            self.assertEqual((made.span, made.key_span, made.header_span, made.line, made.column), (None,) * 5)
            for name in ("span", "key_span", "header_span", "line", "column"):
                with self.assertRaises(AttributeError):
                    setattr(made, name, None)

    def test_copies_have_them_and_equality_does_not(self) -> None:
        text = "[package]\nname = 1\nedtion = 1"
        for found in (faults(text)[0], unused_keys(text)[0]):
            for again in (copy.copy(found), copy.deepcopy(found), pickle.loads(pickle.dumps(found))):
                said = again, again.span, again.header_span, again.line
                self.assertEqual(said, (found, found.span, Span(0, 9), found.line))
        one, other = faults("name = 1")[0], faults("\nname = 1")[0]
        self.assertEqual((one, hash(one)), (other, hash(other)))
        self.assertNotEqual(one.span, other.span)

    def test_a_thousand_take_little_memory(self) -> None:
        text = "[dependencies]\n" + "".join(f"a{number} = 1\n" for number in range(5_000))
        tracemalloc.start()
        found = faults(text)
        taken, _ = tracemalloc.get_traced_memory()
        tracemalloc.stop()
        self.assertEqual(len(found), 5_001)
        self.assertLess(taken, 400 * len(found))


class Positions(unittest.TestCase):
    TEXT = "a\r\né😀 = '''\n#'''\n"

    def test_each_offset(self) -> None:
        data = self.TEXT.encode("utf-8")
        likes: list[Any] = [self.TEXT, data, bytearray(data), memoryview(data)]
        for like in likes:
            self.assertEqual(positions(like, range(len(data) + 1)), [self.position(data, at) for at in range(len(data) + 1)])

    def position(self, data: bytes, at: int) -> Position:
        start = data.rfind(b"\n", 0, at) + 1
        before = data[start:at]
        characters = sum(byte & 0xC0 != 0x80 for byte in before)
        return Position(data.count(b"\n", 0, at) + 1, at - start, characters, characters + sum(byte >= 0xF0 for byte in before))

    def test_any_order(self) -> None:
        self.assertEqual([each.bytes for each in positions("abc", [3, 0, 2, 2, 1])], [3, 0, 2, 2, 1])
        self.assertEqual(positions("abc", []), [])
        self.assertEqual(positions("", iter([0])), [Position(1, 0, 0, 0)])
        self.assertEqual(positions("abc", array.array("Q", [1])), [Position(1, 1, 1, 1)])

    def test_where_a_text_is_no_toml(self) -> None:
        text = "a = '日本語' '"
        with self.assertRaises(ManifestError) as caught:
            canonical(text)
        assert caught.exception.start is not None
        (position,) = positions(text, [caught.exception.start])
        self.assertEqual((position.line, position.characters + 1), (caught.exception.line, caught.exception.column))

    def test_a_file(self) -> None:
        with tempfile.TemporaryDirectory() as folder:
            file = Path(folder, "Cargo.toml")
            file.write_bytes(b"a\nb")
            self.assertEqual(positions(file, [3]), [Position(2, 1, 1, 1)])

    def test_what_is_refused(self) -> None:
        for offset in (-1, 4, 2**64):
            with self.assertRaisesRegex(ValueError, "not within the text, which has 3 bytes"):
                positions("abc", [0, offset])
        for wrong in ("1", None, 0.5, True):
            with self.assertRaisesRegex(TypeError, "an offset has to be an int"):
                positions("abc", [wrong])  # type: ignore[list-item]
        texts: list[Any] = [b"\xff", "\ud800"]
        for text in texts:
            with self.assertRaises(ManifestError) as caught:
                positions(text, [0])
            self.assertIs(caught.exception.cause, Cause.NOT_UTF8)
