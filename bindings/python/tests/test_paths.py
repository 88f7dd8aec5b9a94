"""Key paths, between steps and texts."""
import unittest

from cargo_manifest import Cause, ManifestError, canonical
from cargo_manifest._paths import KeyPath, steps_of, text_of

# as docs/SCHEMA.md says that a path is written
PATHS: list[tuple[KeyPath, str]] = [
    ((), "(top)"),
    (("(top)",), '"(top)"'),
    (("package", "authors", 0), "package.authors[0]"),
    (("a", 0, 12, "b"), "a[0][12].b"),
    ((7,), "[7]"),
    ((7, "a"), "[7].a"),
    (("target", "cfg(unix)", "dependencies", "b"), 'target."cfg(unix)".dependencies.b'),
    (("",), '""'),
    (("", ""), '"".""'),
    (("0", 0, "-", "_"), "0[0].-._"),
    (("a.b", "[0]"), '"a.b"."[0]"'),
    (('say "a"', "a\\b", "\\"), '"say \\"a\\""."a\\\\b"."\\\\"'),
    (("\0\t\n\r\x1b\x1f\x7f",), '"\\u0000\\u0009\\u000A\\u000D\\u001B\\u001F\\u007F"'),
    (("é", "日本語", "😀", "\x80", "\u2028"), '"é"."日本語"."😀"."\x80"."\u2028"'),
    (("\\u0041",), '"\\\\u0041"'),
    (("'",), '"\'"'),
]


class KeyPaths(unittest.TestCase):
    def test_as_texts_and_back(self) -> None:
        for path, text in PATHS:
            with self.subTest(text=text):
                self.assertEqual(text_of(path), text)
                self.assertEqual(steps_of(text), path)

    def test_an_index_is_a_number_and_a_key_a_text(self) -> None:
        self.assertEqual([type(step) for step in steps_of('a[1]."1".1')], [str, int, str, str])

    def test_each_ascii_character_in_a_key(self) -> None:
        bare = set("ABCDEFGHIJKLMNOPQRSTUVWXYZabcdefghijklmnopqrstuvwxyz0123456789_-")
        for number in range(128):
            text = text_of((chr(number),))
            self.assertEqual(text == chr(number), chr(number) in bare, text)
            self.assertEqual(steps_of(text), (chr(number),))

    def test_each_ascii_character_in_a_key_of_the_library(self) -> None:
        for number in range(128):
            with self.assertRaises(ManifestError) as caught:
                canonical(f'package = {{ name = "a" }}\ndependencies = {{ "\\u{number:04X}" = 1 }}')
            self.assertIs(caught.exception.cause, Cause.WRONG_KIND)
            self.assertEqual(caught.exception.path, ("dependencies", chr(number)))
            self.assertEqual(caught.exception.path_text, text_of(("dependencies", chr(number))))

    def test_of_100_kilobytes(self) -> None:
        for key in ("x" * 100_000, '"' * 50_000, "\n" * 20_000):
            path = ("target", key, "dependencies", "a")
            with self.assertRaises(ManifestError) as caught:
                canonical(f"package = {{ name = 'p' }}\n[target.{text_of((key,))}.dependencies]\na = 1\n")
            self.assertEqual(caught.exception.path, path)
