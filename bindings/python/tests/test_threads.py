"""Calls from eight threads at once."""
import threading
import time
import unittest
from collections.abc import Callable
from concurrent.futures import ThreadPoolExecutor

from cargo_manifest import Edit, ManifestError, canonical, completed, diagnostics, edited, faults, positions, refusals, resolved
from cargo_manifest import resolved_completed, table, unfound_targets, unused_keys

from .test_calls import COUNT, FOLDERS, LIB, MANY, MANY_BINS, MEMBER, RESOLVED, ROOT

THREADS = 8
TURNS = 150


def refused(text: str) -> tuple[object, ...]:
    """What the error of a text says."""
    try:
        canonical(text)
    except ManifestError as error:
        return str(error), error.path, error.start
    return ("accepted",)


def each_call(thread: int) -> list[object]:
    """What the calls answer to manifests of this thread's own."""
    name = f"p{thread}"
    return [
        canonical(f"name = '{name}'"),
        table(f"name = '{name}'"),
        completed(MEMBER.replace("p-q", name), {".": [], "src": []}),
        resolved(MEMBER.replace("p-q", name), ROOT),
        resolved_completed(MEMBER, ROOT, FOLDERS),
        canonical(MANY) == MANY_BINS + '[package]\nname = "a"\n',
        len(table(MANY)["bin"]),
        refused(f"package = {{ name = 'p', authors = [{'1, ' * thread}] }}"),
        refused(" " * thread + "="),
        [fault.path for fault in faults(f"package = {{ name = {thread}, authors = [{'1, ' * thread}] }}")],
        [key.path for key in unused_keys(f"name = 'p'\n{name} = 1")],
        edited(f"# {name}\na = 1 # {name}", [Edit.set(("a",), str(thread))]),
        [position.line for position in positions("\n" * thread, range(thread + 1))],
        [(refusal.path, refusal.root_line) for refusal in refusals(MEMBER.replace("p-q", name), "\n" * thread + "[workspace]")],
        [(each.code, each.line) for each in diagnostics("\n" * thread + f"[package]\nname = '{name}'\nversion = '1.0.0'\n")],
        [(target.path, target.line) for target in unfound_targets("\n" * thread + f"lib = {{}}\npackage.name = '{name}'", {})],
    ]


def wanted(thread: int) -> list[object]:
    """What they have to answer."""
    name = f"p{thread}"
    inherits = f'[package]\nedition = "2021"\nname = "{name}"\n\n[package.version]\nworkspace = true\n'
    accepted = thread == 0
    return [
        f'[package]\nname = "{name}"\n',
        {"package": {"name": name}},
        inherits,
        RESOLVED.replace("p-q", name),
        LIB + RESOLVED,
        True,
        COUNT,
        ("accepted",) if accepted else ("invalid type for `package.authors[0]`: expected a string", ("package", "authors", 0), None),
        (refused(" " * thread + "=")[0], None, thread),
        [("package", "name"), *(("package", "authors", index) for index in range(thread))],
        [(name,)],
        f"# {name}\na = {thread} # {name}",
        list(range(1, thread + 2)),
        [(("package", "version"), thread + 1)],
        [("missing-edition", thread + 1)],
        [(("lib",), thread + 1)],
    ]


def longest_wait(call: Callable[[], object]) -> tuple[float, float]:
    """How long another thread stands still at most while a call is made, and how long the call takes."""
    is_over = threading.Event()
    longest = [0.0]

    def count() -> None:
        last = time.monotonic()
        while not is_over.is_set():
            now = time.monotonic()
            longest[0], last = max(longest[0], now - last), now

    other = threading.Thread(target=count)
    other.start()
    began = time.monotonic()
    call()
    took = time.monotonic() - began
    is_over.set()
    other.join()
    return longest[0], took


class Threads(unittest.TestCase):
    def test_eight_at_once(self) -> None:
        at_once = threading.Barrier(THREADS)

        def turns(thread: int) -> int:
            due = wanted(thread)
            at_once.wait()
            return sum(each_call(thread) == due for _ in range(TURNS))

        with ThreadPoolExecutor(THREADS) as pool:
            self.assertEqual(list(pool.map(turns, range(THREADS))), [TURNS] * THREADS)

    def test_python_runs_on_meanwhile(self) -> None:
        long = "[package]\nname = 'a'\nauthors = [" + "'é', " * 300_000 + "]"
        # (on a busy machine the other thread may have to wait as well, so that one of some tries is enough)
        tries = [longest_wait(lambda: canonical(long)) for _ in range(5)]
        self.assertTrue(any(waited < took / 2 for waited, took in tries), tries)
