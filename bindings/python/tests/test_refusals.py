"""Each reason to refuse, with all that its error says."""
import copy
import errno
import os
import pickle
import pydoc
import sys
import unittest
from collections.abc import Callable
from typing import Any, Optional

from cargo_manifest import Cause, ManifestError, canonical, completed, resolved, resolved_completed, table
from cargo_manifest import completed_table, resolved_completed_table, resolved_table
from cargo_manifest._library import Answer
from cargo_manifest._refusal import refusal

from .places import LIBRARY, python

PACKAGE = "[package]\nname = 'p'\n"
MEMBER = "package = { name = 'p', version.workspace = true }"
NO_LIBRARY = "can't find library, rename file to `src/lib.rs` or specify lib.path"
TOO_LONG = "the result could take more bytes than `most`"
Call = Callable[[], Any]
FIELDS = ("cause", "part", "path", "path_text", "name", "line", "column", "start", "end")

# a text with a fault of its schema: its cause, its path by keys and indexes, and as a text, and what is said of it
SCHEMA = [
    (
        "[package]\nname = 'p'\nauthors = [true]\n",
        Cause.WRONG_KIND,
        ("package", "authors", 0),
        "package.authors[0]",
        "invalid type for `package.authors[0]`: expected a string",
    ),
    ("", Cause.MISSING, ("name",), "name", "missing field `name`"),
    (
        PACKAGE + "[dependencies.a]\ndefault-features = true\ndefault_features = true",
        Cause.TWO_SPELLINGS,
        ("dependencies", "a", "default-features"),
        "dependencies.a.default-features",
        "`dependencies.a.default-features` is given twice, as `default-features` and as `default_features`",
    ),
    (
        PACKAGE + "edition = '2020'",
        Cause.NOT_A_CHOICE,
        ("package", "edition"),
        "package.edition",
        "`package.edition` is none of `2015`, `2018`, `2021`, `2024`",
    ),
    (
        PACKAGE + "[profile.release]\ncodegen-units = 65536",
        Cause.OUT_OF_RANGE,
        ("profile", "release", "codegen-units"),
        "profile.release.codegen-units",
        "invalid value for `profile.release.codegen-units`: expected an integer from 0 to 65535",
    ),
    (
        PACKAGE + "[lints]\nworkspace = false",
        Cause.NOT_TRUE,
        ("lints", "workspace"),
        "lints.workspace",
        "invalid value for `lints.workspace`: expected `true`",
    ),
    (
        PACKAGE + "[profile.release.package]\na = [0, [1.5]]",
        Cause.HOLDS_FLOAT,
        ("profile", "release", "package", "a", 1, 0),
        "profile.release.package.a[1][0]",
        "invalid type for `profile.release.package.a[1][0]`: expected a value without a float",
    ),
    (
        PACKAGE + "[target.'cfg(unix)'.dependencies]\n\"a\\\"\\\\\\u0007é.(top)\" = 1",
        Cause.WRONG_KIND,
        ("target", "cfg(unix)", "dependencies", 'a"\\\aé.(top)'),
        'target."cfg(unix)".dependencies."a\\"\\\\\\u0007é.(top)"',
        'invalid type for `target."cfg(unix)".dependencies."a\\"\\\\\\u0007é.(top)"`: expected a string or a table',
    ),
    (
        PACKAGE + "[dependencies]\n'' = 1",
        Cause.WRONG_KIND,
        ("dependencies", ""),
        'dependencies.""',
        'invalid type for `dependencies.""`: expected a string or a table',
    ),
    (
        PACKAGE + "[dependencies]\n'(top)' = 1",
        Cause.WRONG_KIND,
        ("dependencies", "(top)"),
        'dependencies."(top)"',
        'invalid type for `dependencies."(top)"`: expected a string or a table',
    ),
]

# a text that is no TOML: where, by line, column and offset
NO_TOML = [
    ("[package\nname = 'p'", 1, 9, 8),
    ("[package]\nname = 'é' é\n", 2, 12, 22),
    ("a = 1\r\nb = = 2", 2, 5, 11),
    ("a = 1\rb = 2", 1, 6, 5),
    ("\n\n\n=", 4, 1, 3),
    ("a = '日本語' '", 1, 11, 16),
    ("a", 1, 2, 1),
]


def fields(error: ManifestError) -> dict[str, Any]:
    """What an error says, except what is None."""
    told = {field: getattr(error, field) for field in FIELDS}
    return {field: value for field, value in told.items() if value is not None}


class Refused(unittest.TestCase):
    def refused(self, call: Call, text: Optional[str], **wanted: Any) -> ManifestError:
        """The error of a call, which has this text and these fields; others are None."""
        with self.assertRaises(ManifestError) as caught:
            call()
        self.assertEqual(fields(caught.exception), {"part": "manifest", **wanted})
        if text is not None:
            self.assertEqual(str(caught.exception), text)
        return caught.exception


class OfAText(Refused):
    def test_faults_of_the_schema(self) -> None:
        for text, cause, path, path_text, line in SCHEMA:
            with self.subTest(text=text):
                wanted = {"cause": cause, "path": path, "path_text": path_text}
                for call in (canonical, table):
                    self.refused(lambda: call(text), line, **wanted)
                self.refused(lambda: completed(text, {}), line, **wanted)
                self.refused(lambda: resolved(text, ""), line, **wanted)
                self.refused(lambda: resolved(PACKAGE, text), f"root: {line}", **wanted, part="root")

    def test_no_toml(self) -> None:
        for text, line, column, start in NO_TOML:
            with self.subTest(text=text):
                error = self.no_toml(lambda: canonical(text), line, column, start)
                self.assertTrue(str(error).startswith(f"line {line}, column {column}: "), str(error))
                error = self.no_toml(lambda: resolved(PACKAGE, text), line, column, start, part="root")
                self.assertTrue(str(error).startswith(f"root: line {line}, column {column}: "), str(error))

    def no_toml(self, call: Call, line: int, column: int, start: int, part: str = "manifest") -> ManifestError:
        with self.assertRaises(ManifestError) as caught:
            call()
        told = fields(caught.exception)
        self.assertGreaterEqual(told.pop("end"), start)
        wanted = {"cause": Cause.NO_TOML, "part": part, "line": line, "column": column, "start": start}
        self.assertEqual(told, wanted)
        self.assertEqual(len(str(caught.exception).splitlines()), 1)
        return caught.exception

    def test_the_place_of_a_key_that_is_there_twice(self) -> None:
        text = "a = 'é'\na = 2"
        error = self.no_toml(lambda: canonical(text), 2, 1, 9)
        self.assertLessEqual(error.end or 0, len(text.encode("utf-8")))

    def test_not_utf8(self) -> None:
        as_bytes = [b"\xff", b"name = 'a\xc3'", b"name = '\xed\xa0\x80'"]
        for text in (*as_bytes, "name = '\ud800'", "\udcff", "\ud83d\ude00"):
            with self.subTest(text=text):
                self.refused(lambda: canonical(text), "invalid UTF-8", cause=Cause.NOT_UTF8)
                self.refused(lambda: table(text), "invalid UTF-8", cause=Cause.NOT_UTF8)
                self.refused(lambda: resolved(MEMBER, text), "root: invalid UTF-8", cause=Cause.NOT_UTF8, part="root")


class OfDepthAndLength(Refused):
    # brackets that are open at one place, dots of a key and of a header, and a header and a key that make 129 tables in one another
    DEEP = (
        "a = " + "[" * 510,
        "a" + ".a" * 170 + " = 1",
        "[a" + ".a" * 170 + "]",
        "[a" + ".a" * 79 + "]\na" + ".a" * 49 + " = 1",
        # and 113 by a key below a header of an array of tables
        "[[a" + ".a" * 79 + "]]\na" + ".a" * 33 + " = 1",
    )

    # 80 arrays, inline tables, or both by turns
    NESTED = (("[" * 80, "]" * 80), ("{a = " * 80, "}" * 80), ("[{a = " * 40, "}]" * 40))

    def test_what_the_reader_of_a_text_does_not_read(self) -> None:
        for begins, ends in self.NESTED:
            self.one_more_is_no_toml(f"x = {begins}1{ends}", f"x = [{begins}1{ends}]")
        key = ".".join(["x"] * 80)
        self.one_more_is_no_toml(f"{key} = 1", f"x.{key} = 1")

    def one_more_is_no_toml(self, text: str, longer: str) -> None:
        """A text in metadata is read, and the longer one is refused as no TOML."""
        head = f"{PACKAGE}[package.metadata]\n"
        self.assertIn("metadata", canonical(head + text))
        with self.assertRaises(ManifestError) as caught:
            canonical(head + longer)
        self.assertIs(caught.exception.cause, Cause.NO_TOML)

    def test_what_nests_too_deep(self) -> None:
        cause, line = Cause.TOO_DEEP, "nested too deep: the limit is 128 arrays and tables within one another"
        for text in self.DEEP:
            for call in (canonical, table):
                self.refused(lambda: call(text), line, cause=cause)
            self.refused(lambda: completed(text, {}), line, cause=cause)
            self.refused(lambda: resolved(text, text), line, cause=cause)
            self.refused(lambda: resolved(PACKAGE, text), f"root: {line}", cause=cause, part="root")

    def test_what_takes_too_much(self) -> None:
        given: list[tuple[Callable[..., Any], tuple[Any, ...]]] = [
            (canonical, ()),
            (table, ()),
            (completed, ({".": []},)),
            (completed_table, ({".": []},)),
            (resolved, ("workspace = {}",)),
            (resolved_table, ("workspace = {}",)),
            (resolved_completed, ("workspace = {}", {".": []})),
            (resolved_completed_table, ("workspace = {}", {".": []})),
        ]
        for call, words in given:
            with self.subTest(call=call):
                whole = call(PACKAGE, *words)
                for enough in (None, 4096, 2**63, 2**64, 2**100):
                    self.assertEqual(call(PACKAGE, *words, most=enough), whole)
                for less in (0, 19):
                    self.refused(lambda: call(PACKAGE, *words, most=less), TOO_LONG, cause=Cause.TOO_LONG)
                # (a fault of the text is reported, however long its words are)
                wanted = {"cause": Cause.MISSING, "path": ("name",), "path_text": "name"}
                self.refused(lambda: call("", *words, most=0), "missing field `name`", **wanted)

    def test_the_length_of_a_table(self) -> None:
        # 8 1 7 `package` 8 1 4 `name` 1 1 `p`
        self.assertEqual(table(PACKAGE, most=20), {"package": {"name": "p"}})
        self.refused(lambda: table(PACKAGE, most=19), TOO_LONG, cause=Cause.TOO_LONG)

    def test_a_long_key_above_many_tables(self) -> None:
        text = f"{PACKAGE}[package.metadata.{'k' * 1000}]\n" + "".join(f"t{number} = {{}}\n" for number in range(1000))
        self.assertGreater(len(canonical(text)), 1_000_000)
        self.refused(lambda: canonical(text, most=1 << 16), TOO_LONG, cause=Cause.TOO_LONG)
        self.assertEqual(len(table(text, most=1 << 16)["package"]["metadata"]["k" * 1000]), 1000)

    def test_what_is_no_length(self) -> None:
        for other in ("1", 1.0, True, b"", [1]):
            with self.assertRaisesRegex(TypeError, "^most has to be an int or None, not "):
                canonical(PACKAGE, most=other)  # type: ignore[arg-type]
        with self.assertRaisesRegex(ValueError, "^most has to be 0 or more, not -1$"):
            canonical(PACKAGE, most=-1)


class OfFolders(Refused):
    def test_the_folder_of_the_manifest_is_not_there(self) -> None:
        cause, line = Cause.FOLDER_NOT_FOUND, "folder not found: '.'"
        self.refused(lambda: completed(PACKAGE, {}), line, cause=cause, name=".")
        fault = FileNotFoundError("no such folder")
        given = {"src": FileNotFoundError("nor this one"), ".": fault}
        error = self.refused(lambda: completed(PACKAGE, given), line, cause=cause, name=".")
        self.assertIs(error.__cause__, fault)
        gone = os.path.join("no", "such\nfolder")
        error = self.refused(lambda: completed(PACKAGE, gone), f"folder not found: {gone!r}", cause=cause, name=gone)
        self.assertIsInstance(error.__cause__, FileNotFoundError)

    def test_a_folder_has_a_fault(self) -> None:
        for path in ("src", "."):
            fault = PermissionError(errno.EACCES, "Permission denied")
            given = {".": [], "tests": NotADirectoryError(), path: fault}
            calls = (lambda: completed(PACKAGE, given), lambda: resolved_completed(PACKAGE, "workspace={}", given))
            for call in calls:
                error = self.refused(call, f"folder cannot be listed: {path!r}", cause=Cause.FOLDER_FAULT, name=path)
                self.assertIs(error.__cause__, fault)

    def test_no_memory_for_a_folder(self) -> None:
        for fault in (MemoryError(), OSError(errno.ENOMEM, "Cannot allocate memory")):
            for path in ("src", "src/bin", "tests", "."):
                with self.subTest(fault=fault, path=path), self.assertRaises(MemoryError) as caught:
                    completed(PACKAGE, {".": [], path: fault})
                self.assertIs(caught.exception.__cause__, fault if path in ("src", ".") else None)

    def test_no_fault_is_the_cause_of_what_else_refuses(self) -> None:
        error = self.refused(
            lambda: completed("", {}), None, cause=Cause.MISSING, path=("name",), path_text="name"
        )
        self.assertIsNone(error.__cause__)

    def test_a_path_or_a_name_that_is_not_utf8(self) -> None:
        for given in ({".": ["a\ud800"]}, {".": [], "src\udcff": []}, {".": [], "docs": ["a", "\udfff"]}):
            self.refused(
                lambda: completed(PACKAGE, given),
                "the path of a folder, or a name in it, is not UTF-8",
                cause=Cause.FOLDER_NOT_UTF8,
            )

    def test_a_declared_library_without_a_file(self) -> None:
        text = PACKAGE + "edition = '2021'\n[lib]"
        self.refused(lambda: completed(text, {".": []}), NO_LIBRARY, cause=Cause.NO_LIBRARY_FILE)


class OfTheWorkspace(Refused):
    def test_no_workspace(self) -> None:
        self.refused(lambda: resolved(MEMBER, PACKAGE), "root: missing table `workspace`", cause=Cause.NO_WORKSPACE, part="root")

    def test_what_the_workspace_does_not_have(self) -> None:
        cause = Cause.NOT_IN_WORKSPACE
        line = "`version` is inherited from the workspace, which does not define it"
        self.refused(lambda: resolved(MEMBER, "workspace = {}"), line, cause=cause, name="version")
        text = PACKAGE + "[dependencies]\n'a b'.workspace = true"
        line = '`"a b"` is inherited from the workspace, which does not define it'
        self.refused(lambda: resolved(text, "workspace = {}"), line, cause=cause, name="a b")
        text = PACKAGE + "[lints]\nworkspace = true"
        line = "`lints` is inherited from the workspace, which does not define it"
        self.refused(lambda: resolved(text, "workspace = {}"), line, cause=cause, name="lints")

    def test_what_the_workspace_inherits_itself(self) -> None:
        text = PACKAGE + "[dependencies]\na.workspace = true"
        root = "workspace.dependencies.a.workspace = true"
        line = "root: the dependency `a` is inherited from the workspace, whose own entry says `workspace = true`"
        cause = Cause.INHERITED_IN_WORKSPACE
        self.refused(lambda: resolved(text, root), line, cause=cause, name="a", part="root")

    def test_mixed_lints(self) -> None:
        text = PACKAGE + "[lints]\nworkspace = true\nrust.unsafe_code = 'forbid'"
        root = "workspace.lints.rust.unsafe_code = 'forbid'"
        line = "`lints` cannot have lints of its own next to `workspace = true`"
        self.refused(lambda: resolved(text, root), line, cause=Cause.MIXED_LINTS)

    def test_a_tool_named_workspace(self) -> None:
        text = PACKAGE + "[lints]\nworkspace = true"
        root = "workspace.lints.workspace.unsafe_code = 'forbid'"
        line = "root: `lints` is inherited from a workspace with lints of a tool named `workspace`"
        cause = Cause.TOOL_NAMED_WORKSPACE
        self.refused(lambda: resolved(text, root), line, cause=cause, part="root")


class Order(Refused):
    def test_the_first_step_that_refuses_is_told(self) -> None:
        bad = {".": ["\ud800"]}
        cause = Cause.FOLDER_NOT_UTF8
        self.refused(lambda: resolved_completed(b"\xff", b"\xff", bad), None, cause=cause)
        self.refused(lambda: resolved_completed(b"\xff", b"\xff", {}), None, cause=Cause.NOT_UTF8)
        self.refused(lambda: resolved_completed(MEMBER, b"\xff", {}), None, cause=Cause.NOT_UTF8, part="root")
        self.refused(lambda: resolved_completed(MEMBER, PACKAGE, {}), None, cause=Cause.NO_WORKSPACE, part="root")
        given = {"cause": Cause.NOT_IN_WORKSPACE, "name": "version"}
        self.refused(lambda: resolved_completed(MEMBER, "workspace = {}", {}), None, **given)


class Memory(unittest.TestCase):
    @unittest.skipUnless(sys.platform == "linux", "the memory of a process is bounded by means of Linux")
    def test_no_memory_is_left(self) -> None:
        said, _ = python(
            "import cargo_manifest, resource\n"
            "text = b\"[package]\\nname = 'p'\\nauthors = [\" + b\"'x',\" * (1 << 20) + b']'\n"
            "pages = int(open('/proc/self/statm').read().split()[0])\n"
            "most = pages * resource.getpagesize() + 3 * len(text)\n"
            "resource.setrlimit(resource.RLIMIT_AS, (most, most))\n"
            "try:\n"
            "    cargo_manifest.canonical(text)\n"
            "except MemoryError as error:\n"
            "    print(error)\n",
            library=LIBRARY,
        )
        self.assertEqual(said, "no memory was left for the manifest\n")


class NeverTold(unittest.TestCase):
    """Answers that no call gives, made here."""

    def made(self, status: int, cause: int = 0, said: str = "") -> Exception:
        return refusal(Answer(status, cause, len(said), 0, 0), said, b"", b"", None)

    def test_what_no_manifest_brings_about(self) -> None:
        date = self.made(7, said="a date-time cannot be written")
        self.assertEqual(str(date), "a date-time cannot be written")
        assert isinstance(date, ManifestError)
        self.assertEqual(fields(date), {"cause": Cause.DATE_WITHOUT_TEXT, "part": "manifest"})
        metadata = self.made(18, 8, "(top)")
        self.assertEqual(str(metadata), "root: invalid metadata in the manifest")
        assert isinstance(metadata, ManifestError)
        self.assertEqual(metadata.path, ())
        self.assertIsInstance(self.made(6), MemoryError)
        self.assertIsInstance(self.made(3, 2), MemoryError)

    def test_answers_that_the_header_does_not_have(self) -> None:
        for status, cause in ((14, 0), (16, 0), (19, 0), (21, 0), (30, 0), (38, 0), (40, 0), (255, 0), (2, 0), (2, 9), (18, 9)):
            with self.subTest(status=status, cause=cause), self.assertRaises(RuntimeError):
                self.made(status, cause)
        for said in ("", "a..b", 'a."b', "a[x]", "a[0]b", "a b", '"a"b'):
            with self.subTest(said=said), self.assertRaises(RuntimeError):
                self.made(2, 1, said)


class Copies(unittest.TestCase):
    def errors(self) -> list[ManifestError]:
        calls: list[Call] = [
            *(lambda text=text: canonical(text) for text, *_ in (*SCHEMA, *NO_TOML)),
            lambda: resolved(MEMBER, b"\xff"),
            lambda: resolved(MEMBER, "workspace = {}"),
            lambda: completed(PACKAGE, {}),
            lambda: table(PACKAGE + "metadata = 23:59:60"),
            lambda: resolved(PACKAGE, OfDepthAndLength.DEEP[0]),
            lambda: canonical(PACKAGE, most=0),
        ]
        errors = []
        for call in calls:
            with self.assertRaises(ManifestError) as caught:
                call()
            errors.append(caught.exception)
        return errors

    def test_pickles_and_copies(self) -> None:
        for error in self.errors():
            copies = [pickle.loads(pickle.dumps(error, protocol)) for protocol in range(pickle.HIGHEST_PROTOCOL + 1)]
            for other in (*copies, copy.copy(error), copy.deepcopy(error)):
                self.assertIs(type(other), ManifestError)
                self.assertIsNot(other, error)
                self.assertEqual((str(other), repr(other), other.args), (str(error), repr(error), error.args))
                self.assertEqual(fields(other), fields(error))

    def test_a_kind_of_ones_own(self) -> None:
        other = pickle.loads(pickle.dumps(OwnError(Cause.MISSING, path_text="name")))
        self.assertEqual((type(other), str(other)), (OwnError, "missing field `name`"))

    def test_is_a_value_error(self) -> None:
        with self.assertRaisesRegex(ValueError, "^missing field `name`$"):
            canonical("")

    def test_the_page_of_the_causes(self) -> None:
        page = pydoc.plain(pydoc.render_doc(Cause))
        self.assertIn("WRONG_KIND", page)
        self.assertNotIn("casefold", page)

    def test_causes_in_plain_words(self) -> None:
        self.assertEqual((Cause.MISSING, hash(Cause.MISSING)), ("missing", hash("missing")))
        self.assertNotEqual(Cause.MISSING, "wrong kind")
        self.assertNotEqual(Cause.MISSING, Cause.WRONG_KIND)
        self.assertEqual((str(Cause.WRONG_KIND), Cause("wrong kind")), ("wrong kind", Cause.WRONG_KIND))
        self.assertEqual(len({cause.value for cause in Cause}), len(Cause))


class OwnError(ManifestError):
    """An error of a caller's own."""
