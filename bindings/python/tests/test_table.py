"""Tables by values: of manifests, and of tagged bytes that are written here as docs/LIBRARY.md says."""
import copy
import threading
import unittest
from collections.abc import Callable
from datetime import date, datetime, time, timedelta, timezone
from typing import Any

from cargo_manifest import Cause, ManifestError, canonical, table
from cargo_manifest._tagged import decoded

PACKAGE = "[package]\nname = 'p'\n[package.metadata]\n"

# values of TOML, and those of Python
VALUES: list[tuple[str, Any]] = [
    ("0", 0),
    ("127", 127),
    ("128", 128),
    ("16384", 16384),
    ("9223372036854775807", 2**63 - 1),
    ("-1", -1),
    ("-9223372036854775808", -(2**63)),
    ("0xff", 255),
    ("4611686018427387904", 2**62),
    ("-4611686018427387905", -(2**62) - 1),
    ("true", True),
    ("false", False),
    ("''", ""),
    ('"é \\u0000 \\U0001F600"', "é \0 😀"),
    ("[]", []),
    ("{}", {}),
    ("[[], [1, 'a'], {}]", [[], [1, "a"], {}]),
    ("{ b = { a = [true] }, a = {} }", {"a": {}, "b": {"a": [True]}}),
    ("1979-05-27", date(1979, 5, 27)),
    ("9999-12-31", date(9999, 12, 31)),
    ("0001-01-01", date(1, 1, 1)),
    ("00:00:00", time(0, 0, 0)),
    ("07:32", time(7, 32)),
    ("23:59:59.5", time(23, 59, 59, 500_000)),
    ("23:59:59.9999999", time(23, 59, 59, 999_999)),
    ("23:59:59.000000999", time(23, 59, 59)),
    ("23:59:59.000001", time(23, 59, 59, 1)),
    ("1979-05-27T07:32:00", datetime(1979, 5, 27, 7, 32)),
    ("1979-05-27 07:32", datetime(1979, 5, 27, 7, 32)),
    ("1979-05-27T07:32:00Z", datetime(1979, 5, 27, 7, 32, tzinfo=timezone.utc)),
    ("1979-05-27T07:32:00+00:00", datetime(1979, 5, 27, 7, 32, tzinfo=timezone.utc)),
    ("1979-05-27T07:32:00-00:00", datetime(1979, 5, 27, 7, 32, tzinfo=timezone.utc)),
    (
        "1979-05-27T07:32:00.999999999-08:00",
        datetime(1979, 5, 27, 7, 32, 0, 999_999, tzinfo=timezone(timedelta(hours=-8))),
    ),
    ("2000-02-29T00:00:00-00:01", datetime(2000, 2, 29, tzinfo=timezone(timedelta(minutes=-1)))),
    ("2000-02-29T00:00:00-23:59", datetime(2000, 2, 29, tzinfo=timezone(-timedelta(hours=23, minutes=59)))),
    ("2000-02-29T00:00:00+23:59", datetime(2000, 2, 29, tzinfo=timezone(timedelta(hours=23, minutes=59)))),
]

# date-times of TOML that Python does not have
BEYOND = ["23:59:60", "1990-12-31T23:59:60Z", "0000-01-01", "0000-12-31T00:00:00"]


def number(value: int) -> bytes:
    """A number in groups of seven bits."""
    groups = []
    while value >= 128:
        groups.append(value % 128 + 128)
        value //= 128
    return bytes([*groups, value])


def text(value: str) -> bytes:
    """A text without its tag."""
    held = value.encode("utf-8")
    return number(len(held)) + held


def deep_text(header: int, key: int) -> str:
    """A manifest whose metadata has a header with this many keys more, and below it a key of this many parts and one more."""
    return f"package.name = 'p'\n[package.metadata{'.a' * header}]\n{'a.' * key}b = 1\n"


def depth_of(value: Any) -> int:
    """How deep tables of the one key `a` nest around the table of `b`."""
    depth = 0
    while "a" in value:
        if list(value) != ["a"]:
            raise AssertionError(f"{list(value)} at depth {depth}")
        depth, value = depth + 1, value["a"]
    if value != {"b": 1}:
        raise AssertionError(f"{value} at depth {depth}")
    return depth


class OfManifests(unittest.TestCase):
    def test_values(self) -> None:
        for written, value in VALUES:
            with self.subTest(written=written):
                got = table(f"{PACKAGE}a = {written}")
                self.assertEqual(got, {"package": {"name": "p", "metadata": {"a": value}}})
                held = got["package"]["metadata"]["a"]
                # (1 is no True, and one time in two zones is not one value)
                self.assertEqual(repr(held), repr(value))

    def test_keys_in_the_order_of_their_bytes(self) -> None:
        made = table(PACKAGE + "b = 1\n'é' = 1\na = 1\nB = 1\n'a-b' = 1\n'😀' = 1\n'' = 1")
        self.assertEqual(list(made["package"]["metadata"]), ["", "B", "a", "a-b", "b", "é", "😀"])

    def test_dates_that_python_cannot_hold(self) -> None:
        for written in BEYOND:
            made = f"{PACKAGE}'a b' = [1, {{ c = {written} }}]"
            with self.subTest(written=written), self.assertRaises(ManifestError) as caught:
                table(made)
            error = caught.exception
            self.assertIs(error.cause, Cause.DATE_BEYOND_PYTHON)
            self.assertEqual(error.path, ("package", "metadata", "a b", 1, "c"))
            self.assertEqual(str(error), 'invalid value for `package.metadata."a b"[1].c`: `datetime` has no such date-time')
            self.assertIsInstance(error.__cause__, ValueError)
            self.assertIn(written, canonical(made))

    def in_a_thread(self, run: Callable[[], None]) -> None:
        """Runs in a thread with 512 KiB of stack, whatever the other threads have."""
        faults: list[BaseException] = []

        def caught() -> None:
            try:
                run()
            except BaseException as fault:
                faults.append(fault)

        before = threading.stack_size(512 << 10)
        thread = threading.Thread(target=caught)
        thread.start()
        threading.stack_size(before)
        thread.join()
        if faults:
            raise faults[0]

    def test_the_deepest_table(self) -> None:
        def run() -> None:
            # (the tables of the package and of the metadata, and 126 more)
            made = table(deep_text(77, 49))
            self.assertEqual(depth_of(made["package"]["metadata"]), 126)
            again = copy.deepcopy(made)
            self.assertEqual(again, made)
            self.assertEqual(repr(again), repr(made))
            header = f"[package.metadata{'.a' * 126}]"
            self.assertEqual(canonical(deep_text(77, 49)), f'[package]\nname = "p"\n\n{header}\nb = 1\n')

        self.in_a_thread(run)

    def test_a_text_that_nests_too_deep(self) -> None:
        parts = "a." * 100_000
        more = (f"a = {'[' * 1_000_000}", f"a = {'{a=' * 100_000}", f"{parts}a = 1", f"[{parts}a]", deep_text(77, 50))
        for made in more:
            with self.assertRaises(ManifestError) as caught:
                table(made)
            self.assertIs(caught.exception.cause, Cause.TOO_DEEP)
        # (more brackets or parts than 80 are not read, whatever else there is)
        for made in (f"a = {'[' * 100}", f"{'a.' * 80}a = 1"):
            with self.assertRaises(ManifestError) as caught:
                table(made)
            self.assertIs(caught.exception.cause, Cause.NO_TOML)


class OfTaggedBytes(unittest.TestCase):
    def test_the_example_of_the_page(self) -> None:
        held = b"\x08\x01\x07package\x08\x02\x08autobins\x04\x04name\x01\x01a"
        self.assertEqual(decoded(held), {"package": {"autobins": False, "name": "a"}})

    def test_numbers(self) -> None:
        for value in (0, 1, 127, 128, 300, 2**14 - 1, 2**14, 2**32, 2**63 - 1):
            self.assertEqual(decoded(b"\x02" + number(value)), value)
            self.assertEqual(decoded(b"\x03" + number(value)), -1 - value)

    def test_lengths(self) -> None:
        # in one group of seven bits, in two and in three, and next to the limits of a byte and of two
        for length in (0, 1, 127, 128, 254, 255, 256, 257, 2**14 - 1, 2**14, 65_535, 65_536, 65_537):
            held = "x" * length
            self.assertEqual(decoded(b"\x01" + text(held)), held)
            self.assertEqual(decoded(b"\x07" + number(length) + b"\x05" * length), [True] * length)
            made = f"{PACKAGE}i = [{'true, ' * length}]\nt = '{held}'\n"
            self.assertEqual(table(made)["package"]["metadata"], {"i": [True] * length, "t": held})
            self.assertEqual(table(canonical(made)), table(made))

    def test_dates(self) -> None:
        day, moment = b"\x01\x05\x1b" + number(1979), b"\x01\x07\x20\x01\x3b\x01" + number(1_000)
        at = datetime(1979, 5, 27, 7, 32, 59, 1)
        for offset, zone in (
            (b"\x00", None),
            (b"\x01\x00", timezone.utc),
            (b"\x01\x01" + number(0), timezone.utc),
            (b"\x01\x01" + number(90), timezone(timedelta(minutes=90))),
            (b"\x01\x02" + number(0), timezone(timedelta(minutes=-1))),
            (b"\x01\x02" + number(479), timezone(timedelta(hours=-8))),
        ):
            value = decoded(b"\x06" + day + moment + offset)
            self.assertEqual((value, value.tzinfo), (at.replace(tzinfo=zone), zone))
        self.assertEqual(decoded(b"\x06" + day + b"\0\0"), at.date())
        self.assertEqual(decoded(b"\x06\0" + moment + b"\0"), at.time())
        self.assertEqual(decoded(b"\x06\0\x01\x07\x20\0\0\0"), time(7, 32))

    def test_a_hundred_thousand_tables_in_one_another(self) -> None:
        value = decoded(b"\x08\x01\x01a" * 100_000 + b"\x08\x01\x01b\x02\x01")
        self.assertEqual(depth_of(value), 100_000)

    def test_bytes_that_hold_no_value(self) -> None:
        day = b"\x06\x01\x05\x1b\xbb\x0f\0\0"
        held = b"\x08\x02" + text("a") + b"\x07\x02\x01" + text("é") + day + text("b") + b"\x05"
        self.assertEqual(decoded(held), {"a": ["é", date(1979, 5, 27)], "b": True})
        bad = [held[:end] for end in range(len(held))]
        bad += [held + b"\0", b"\0", b"\x09", b"\x01\x01\xff", b"\x08\x01\x01\xff\x04", b"\x06\0\0\0", b"\x02\x80"]
        for each in bad:
            with self.subTest(bytes=each), self.assertRaisesRegex(RuntimeError, "different versions"):
                decoded(each)
