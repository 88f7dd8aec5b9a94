"""What is found in documents: faults, what is ignored, and the keys that nothing reads."""
import copy
import pickle
import tempfile
import tracemalloc
import unittest
from pathlib import Path
from typing import Any, Union

from cargo_manifest import Cause, Fault, ManifestError, UnusedKey, canonical, faults, ignored, table, unused_keys
from cargo_manifest._parts import FAULT, IGNORED, UNUSED, found_in, placed_in
from cargo_manifest._paths import path_of
from cargo_manifest._places import Ranges, Span
from cargo_manifest._reader import Reader

from .test_refusals import NO_TOML, SCHEMA, OfDepthAndLength
from .test_table import number, text as text_bytes

PACKAGE = "[package]\nname = 'p'\n"

# documents, with the lines of their faults, of what is ignored, and of the keys that nothing reads
DOCUMENTS: list[tuple[str, list[str], list[str], list[str]]] = [
    (PACKAGE, [], [], []),
    ("", ["missing field `name`"], [], []),
    (
        "[package]\nname = 1\nedtion = '2021'\nauthors = [1, 'a', 2]\nedition = '2020'\n[dependecies.a]\nb = 1",
        [
            "invalid type for `package.name`: expected a string",
            "`package.edition` is none of `2015`, `2018`, `2021`, `2024`",
            "invalid type for `package.authors[0]`: expected a string",
            "invalid type for `package.authors[2]`: expected a string",
        ],
        [],
        ["package.edtion", "dependecies"],
    ),
    (
        PACKAGE + "[dependencies.a]\ndefault-features = true\ndefault_features = 1\nversion = 1",
        [
            "invalid type for `dependencies.a.version`: expected a string",
            "`dependencies.a.default-features` is given twice, as `default-features` and as `default_features`",
        ],
        [],
        [],
    ),
    (
        PACKAGE + "version = { workspace = true, x = 1 }\n[badges]\ngitlab = { branch = 1, foo = 2 }\n'a.b' = 1",
        [],
        ["missing field `badges.gitlab.repository`", "invalid type for `badges.gitlab.branch`: expected a string"],
        ["package.version.x", "badges.gitlab.foo", 'badges."a.b"'],
    ),
    (
        PACKAGE + "[profile.dev]\ncodegen-units = 65536\nlto = nan\npackage = [1]\n[lints]\nworkspace = false\n"
        "rust.a = 1\nrust.b.priority = 128",
        [
            "invalid type for `profile.dev.lto`: expected a value without a float",
            "invalid value for `profile.dev.codegen-units`: expected an integer from 0 to 65535",
            "invalid type for `profile.dev.package`: expected a table",
            "invalid value for `lints.workspace`: expected `true`",
            "invalid type for `lints.rust.a`: expected one of the strings `forbid`, `deny`, `warn`, `allow`, or a table",
            "missing field `lints.rust.b.level`",
            "invalid value for `lints.rust.b.priority`: expected an integer from -128 to 127",
        ],
        [],
        [],
    ),
    (
        "[project]\nname = 1\nresolver = 1\nreadme = 1\npublish = [1]\npublish2 = 1\n[lib]\ntest = 1\n[[bin]]\npath = []\n"
        "[target.x.dev_dependencies]\na = []\nb.workspace = true\nb.optional = 1\n[features]\na = 'a'\nb = [1]\n"
        "[patch.x]\na = 1\n[profile]\nx.strip = 1\n[badges]\nmaintenance = 1\n[dependencies.a]\npublic = 1",
        [
            "invalid type for `target.x.dev_dependencies.a`: expected a string or a table",
            "invalid type for `target.x.dev_dependencies.b.optional`: expected a boolean",
            "invalid type for `features.a`: expected an array",
            "invalid type for `features.b[0]`: expected a string",
            "invalid type for `bin[0].path`: expected a string",
            "invalid type for `patch.x.a`: expected a string or a table",
            "invalid type for `lib.test`: expected a boolean",
            "invalid type for `profile.x.strip`: expected a boolean, or one of the strings `none`, `symbols`, `debuginfo`",
            "invalid type for `project.name`: expected a string",
            "invalid type for `project.readme`: expected a string or a boolean",
            "invalid type for `project.publish[0]`: expected a string",
            "invalid type for `project.resolver`: expected one of the strings `1`, `2`, `3`",
        ],
        ["invalid type for `badges.maintenance`: expected a table"],
        ["dependencies.a.public (Cargo reads it with an unstable feature)", "project.publish2"],
    ),
    ("name = 'p'\nedtion = 1\ndependencies = 1", ["invalid type for `dependencies`: expected a table"], [], ["edtion"]),
    (PACKAGE + "[project]\nname = 1", [], [], ["project (Cargo reads it, but it is deprecated)"]),
]


class Found(unittest.TestCase):
    def test_everything_in_order(self) -> None:
        for text, wanted, dropped, keys in DOCUMENTS:
            with self.subTest(text=text):
                self.assertEqual([str(fault) for fault in faults(text)], wanted)
                self.assertEqual([str(fault) for fault in ignored(text)], dropped)
                self.assertEqual([str(key) for key in unused_keys(text)], [f"unused manifest key: {key}" for key in keys])

    def test_the_parts_of_a_fault(self) -> None:
        (fault,) = faults(PACKAGE + "[profile.p.package]\na = [0, [1.5]]")
        self.assertEqual(fault, Fault(("profile", "p", "package", "a", 1, 0), Cause.HOLDS_FLOAT))
        self.assertEqual((fault.cause, fault.choices), ("holds a float", ()))
        self.assertEqual(str(fault), "invalid type for `profile.p.package.a[1][0]`: expected a value without a float")
        self.assertEqual([type(step) for step in fault.path], [str, str, str, str, int, int])

    def test_choices(self) -> None:
        made = (
            PACKAGE + "edition = '2020'\nresolver = ''\n[workspace.package]\nedition = ''\n[[bin]]\nedition = '2015 '\n"
            "[lints.rust]\na = 'x'\nb = { level = 'Warn' }\n[profile.dev]\nstrip = 'all'\n[badges.maintenance]\nstatus = ''"
        )
        editions, levels = ("2015", "2018", "2021", "2024"), ("forbid", "deny", "warn", "allow")
        wanted = [
            (("package", "edition"), editions),
            (("package", "resolver"), ("1", "2", "3")),
            (("workspace", "package", "edition"), editions),
            (("bin", 0, "edition"), editions),
            (("profile", "dev", "strip"), ("none", "symbols", "debuginfo")),
            (("lints", "rust", "a"), levels),
            (("lints", "rust", "b", "level"), levels),
        ]
        self.assertEqual(faults(made), [Fault(path, Cause.NOT_A_CHOICE, choices) for path, choices in wanted])
        (fault,) = ignored(made)
        self.assertEqual(fault.path, ("badges", "maintenance", "status"))
        status = ["none", "actively-developed", "passively-maintained", "as-is", "experimental", "looking-for-maintainer"]
        self.assertEqual(fault.choices, (*status, "deprecated"))

    def test_the_first_fault_is_what_the_other_calls_tell(self) -> None:
        for text, cause, path, _, line in SCHEMA:
            with self.subTest(text=text):
                self.assertEqual([(each.path, each.cause) for each in faults(text)], [(path, cause)])
                self.assertEqual(str(faults(text)[0]), line)
        for text, wanted, _, _ in DOCUMENTS:
            with self.subTest(text=text):
                self.assertEqual(self.told(text), wanted[0] if wanted else None)

    def test_a_float_in_metadata(self) -> None:
        made = PACKAGE + "version = 1\n[package.metadata]\na = [0, [1.5]]\n[workspace]\nmetadata = nan"
        (fault,) = faults(made)
        self.assertEqual(fault.path, ("package", "version"))
        self.assertEqual(self.told(made), str(fault))
        made = made.replace("version = 1\n", "")
        self.assertEqual(faults(made), [])
        said = "invalid type for `package.metadata.a[1][0]`: expected a value without a float"
        self.assertEqual(self.told(made), said)

    def told(self, text: str) -> Any:
        try:
            canonical(text)
            return None
        except ManifestError as error:
            return str(error)

    def test_what_is_written_has_nothing_of_it(self) -> None:
        text = canonical(DOCUMENTS[4][0])
        self.assertEqual((faults(text), ignored(text), unused_keys(text)), ([], [], []))

    def test_what_is_taken(self) -> None:
        text = "[package]\nname = 'é'\nx = 1\n"
        with tempfile.TemporaryDirectory() as folder:
            file = Path(folder, "Cargo.toml")
            file.write_text(text, encoding="utf-8")
            for like in (text, text.encode("utf-8"), bytearray(text, "utf-8"), memoryview(text.encode("utf-8")), file):
                self.assertEqual(unused_keys(like), [UnusedKey(("package", "x"))])
            with self.assertRaises(FileNotFoundError):
                faults(Path(folder, "none.toml"))
        for call in (faults, ignored, unused_keys):
            with self.assertRaisesRegex(TypeError, "the manifest has to be"):
                call(None)  # type: ignore[operator]


class Refused(unittest.TestCase):
    def test_as_the_other_calls_refuse(self) -> None:
        texts = [text for text, *_ in NO_TOML]
        for text in (*texts, b"\xff", "name = '\ud800'", *OfDepthAndLength.DEEP):
            with self.subTest(text=text):
                for call in (faults, ignored, unused_keys):
                    said = []
                    for each in (call, table):
                        with self.assertRaises(ManifestError) as caught:
                            each(text)
                        said.append((str(caught.exception), vars(caught.exception)))
                    self.assertEqual(said[0], said[1])

    def test_the_bound(self) -> None:
        # 7 2, 7 1 7 3 2 3 1 4 `name` 7 1 7 2 2 0 2 2, and 7 1 7 3 7 0 7 0 7 0
        self.assertEqual(faults("", most=32), faults(""))
        for call in (faults, ignored, unused_keys):
            with self.assertRaises(ManifestError) as caught:
                call("", most=31)
            self.assertIs(caught.exception.cause, Cause.TOO_LONG)

    def test_more_than_most(self) -> None:
        many = "".join(f"{number} = 1\n" for number in range(3000))
        keys = [key.path for key in unused_keys("name = 'p'\n" + many)]
        self.assertEqual(keys, sorted((str(number),) for number in range(3000)))

    def test_what_is_found_is_no_longer_than_some_times_the_document(self) -> None:
        long = "k" * 20_000
        many = "".join(f"a{number} = 1\n" for number in range(20_000))
        made = f"package.name = 'p'\n[target.{long}]\n{many}"
        keys = [key.path for key in unused_keys(made, most=5 * len(made))]
        self.assertEqual((len(keys), keys[0]), (20_000, ("target", long, "a0")))
        self.assertIs(keys[0][1], keys[-1][1])
        made = f"[package]\nname = 'p'\n[profile.a.package{'.a' * 75}]\na{'.a' * 23} = [{'0.5, ' * 20_000}]"
        found = faults(made, most=9 * len(made))
        wanted = ("profile", "a", "package", *"a" * 99, 19_999)
        self.assertEqual((len(found), found[-1].path, found[-1].cause), (20_000, wanted, Cause.HOLDS_FLOAT))


class OfAFault(unittest.TestCase):
    FAULT = Fault(("lints", "rust", "a", 1), Cause.NOT_A_CHOICE, ("deny", "warn"))

    def test_copies(self) -> None:
        for again in (copy.copy(self.FAULT), copy.deepcopy(self.FAULT), pickle.loads(pickle.dumps(self.FAULT))):
            self.assertEqual((again, str(again), hash(again)), (self.FAULT, str(self.FAULT), hash(self.FAULT)))
            self.assertIs(again.cause, self.FAULT.cause)
            self.assertEqual(again.choices, ("deny", "warn"))

    def test_what_is_equal(self) -> None:
        path, choices = ("lints", "rust", "a", 1), ["deny", "warn"]
        self.assertEqual(Fault(list(path), Cause.NOT_A_CHOICE, choices), self.FAULT)
        others = [
            Fault(path[:3], Cause.NOT_A_CHOICE, choices),
            Fault(path, Cause.WRONG_KIND, choices),
            Fault(path, Cause.NOT_A_CHOICE),
            (path, Cause.NOT_A_CHOICE, tuple(choices)),
        ]
        for other in others:
            self.assertNotEqual(self.FAULT, other)

    def test_it_is_printed_as_it_is_made(self) -> None:
        said = "Fault(path=('lints', 'rust', 'a', 1), cause=<Cause.NOT_A_CHOICE: 'not a choice'>, choices=('deny', 'warn'))"
        self.assertEqual(repr(self.FAULT), said)

    def test_it_is_not_changed(self) -> None:
        for name in ("path", "cause", "choices", "other"):
            with self.assertRaises(AttributeError):
                setattr(self.FAULT, name, None)


class OfAnUnusedKey(unittest.TestCase):
    KEY = UnusedKey(("profile", "dev", "trim-paths"))

    def test_copies(self) -> None:
        for again in (copy.copy(self.KEY), copy.deepcopy(self.KEY), pickle.loads(pickle.dumps(self.KEY))):
            self.assertEqual((again, str(again), hash(again)), (self.KEY, str(self.KEY), hash(self.KEY)))
        self.assertNotEqual(self.KEY, UnusedKey(("profile", "dev")))
        self.assertNotEqual(self.KEY, self.KEY.path)

    def test_what_cargo_makes_of_it(self) -> None:
        known = self.KEY.in_cargo
        assert known is not None
        self.assertEqual((known.support, known.since), ("unstable", None))
        lint = ("rust", "unexpected_cfgs", "check-cfg")
        for path in (("lints", *lint), ("workspace", "lints", *lint)):
            self.assertEqual(UnusedKey(path).in_cargo, ("stable", "1.80"))
        for path in (("lints", "rust", "other", "check-cfg"), ("package", "trim-paths"), ("hints", "hints"), ("a",)):
            self.assertIsNone(UnusedKey(path).in_cargo)

    def test_it_is_printed_as_it_is_made(self) -> None:
        self.assertEqual(repr(self.KEY), "UnusedKey(path=('profile', 'dev', 'trim-paths'))")


def held(value: Union[str, int, list[Any]]) -> bytes:
    """The tagged bytes of a text, a number or an array."""
    if isinstance(value, str):
        return b"\1" + text_bytes(value)
    if isinstance(value, int):
        return b"\2" + number(value)
    return b"\7" + number(len(value)) + b"".join(map(held, value))


def below(step: Union[str, int], count: int) -> bytes:
    """The beginning of a part of what is found below a step, up to its parts, of which there are this many."""
    return b"\7\3" + held(3) + held(step) + b"\7" + number(count)


def told(tree: bytes) -> list[tuple[Any, ...]]:
    """What the bytes of a tree say is found, with paths."""
    return [(each.what, path_of(each.link), each.cause, each.choices) for each in found_in(Reader(tree))]


class OfTaggedBytes(unittest.TestCase):
    """Trees of what is found, written here as docs/LIBRARY.md says."""

    WORDS = ["forbid", "deny"]
    TREE: list[Any] = [
        [3, "package", [[3, "name", [[0, 2]]], [3, "authors", [[3, 0, [[0, 1]]], [3, 300, [[0, 1]]]]], [2, "é"]]],
        [3, "lints", [[3, "a", [[0, 4, WORDS]]], [3, "b", [[1, 4, []], [0, 4, WORDS]]]]],
        [1, 7],
        [2, ""],
    ]

    def test_a_tree(self) -> None:
        words = tuple(self.WORDS)
        found = told(held(self.TREE))
        wanted = [
            (FAULT, ("package", "name"), Cause.MISSING, ()),
            (FAULT, ("package", "authors", 0), Cause.WRONG_KIND, ()),
            (FAULT, ("package", "authors", 300), Cause.WRONG_KIND, ()),
            (UNUSED, ("package", "é"), None, ()),
            (FAULT, ("lints", "a"), Cause.NOT_A_CHOICE, words),
            (IGNORED, ("lints", "b"), Cause.NOT_A_CHOICE, ()),
            (FAULT, ("lints", "b"), Cause.NOT_A_CHOICE, words),
            (IGNORED, (), Cause.HOLDS_FLOAT, ()),
            (UNUSED, ("",), None, ()),
        ]
        self.assertEqual(found, wanted)
        self.assertIs(found[4][3], found[6][3])
        self.assertEqual(told(held([])), [])

    def test_the_example_of_the_page(self) -> None:
        example = (
            b"\7\1\7\3\2\3\1\7package\7\2\7\3\2\3\1\4name\7\1\7\2\2\0\2\1\7\2\2\2\1\6edtion"
        )
        wanted = [
            (FAULT, ("package", "name"), Cause.WRONG_KIND, ()),
            (UNUSED, ("package", "edtion"), None, ()),
        ]
        self.assertEqual(told(example), wanted)

    def test_bytes_that_hold_no_tree(self) -> None:
        whole = held(self.TREE)
        bad = [whole[:end] for end in range(len(whole))] + [held("a"), held(1), b"\7\1\7\3\2\3\4\7\0"]
        parts: list[Any] = [
            1, "a", [], [0], ["a", 1], [0, "a"], [0, 0], [0, 9], [0, 4], [1, 4], [4, 1], [0, 257], [0, 1, []], [0, 4, 1],
            [0, 4, [1]], [0, 4, [], 1], [2, 1], [2, "a", 1], [3, "a"], [3, "a", 1], [3, "a", [], 1], [3, [], []], [3, "a", [1]],
        ]
        for each in bad + [held([part]) for part in parts]:
            with self.subTest(bytes=each), self.assertRaisesRegex(RuntimeError, "different versions"):
                told(each)

    def test_a_hundred_thousand_steps_in_one_another(self) -> None:
        found = list(found_in(Reader(b"\7\1" + (below("a", 2) + held([0, 1])) * 100_000 + held([2, "b"]))))
        self.assertEqual((len(found), len(path_of(found[-1].link))), (100_001, 100_001))
        self.assertEqual(path_of(found[1].link), ("a", "a"))

    def test_steps_that_are_shared_take_memory_once(self) -> None:
        long = "k" * 20_000
        parts = b"".join(held([3, index, [[0, 7]]]) for index in range(20_000))
        tree = b"\7\1" + below(long, 1) * 99 + below(long, 20_000) + parts
        tracemalloc.start()
        found = list(found_in(Reader(tree)))
        taken, _ = tracemalloc.get_traced_memory()
        tracemalloc.stop()
        self.assertEqual((len(found), path_of(found[-1].link)), (20_000, (*[long] * 100, 19_999)))
        self.assertLess(taken, 5 * len(tree))

    PLACES: list[Any] = [[[], [], []], [[4, 5], [0, 1], []], [[300, 70000], [], [8, 11]]]
    PLACED: list[Any] = [[[2, "a"], [1, 7], [2, "b"]], PLACES]

    def test_a_tree_with_places(self) -> None:
        due: dict[int, list[Ranges]] = {
            FAULT: [],
            IGNORED: [Ranges(Span(4, 5), Span(0, 1))],
            UNUSED: [Ranges(), Ranges(Span(300, 70000), None, Span(8, 11))],
        }
        for what, wanted in due.items():
            found = placed_in(held(self.PLACED), what)
            self.assertEqual([(each.what, ranges) for each, ranges in found], [(what, ranges) for ranges in wanted])
        self.assertEqual(placed_in(held([[], []]), FAULT), [])
        self.assertEqual([ranges for _, ranges in placed_in(held([self.PLACED[0], []]), UNUSED)], [Ranges(), Ranges()])

    def test_bytes_that_hold_no_places(self) -> None:
        whole, (tree, places) = held(self.PLACED), self.PLACED
        bad = [whole[:end] for end in range(len(whole))] + [whole + b"\0", held([]), held([tree]), held([tree, places, []])]
        ranges: list[Any] = [
            [], [[], []], [[], [], [], []], [[1], [], []], [[1, 2, 3], [], []], [["a", "b"], [], []], ["a", [], []], 1,
        ]
        bad += [held([tree, places[:2]]), held([tree, [*places, places[0]]])]
        for each in bad + [held([tree, [places[0], one, places[0]]]) for one in ranges]:
            with self.subTest(bytes=each), self.assertRaisesRegex(RuntimeError, "different versions"):
                placed_in(each, UNUSED)
