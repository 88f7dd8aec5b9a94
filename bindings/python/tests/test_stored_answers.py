"""What the Rust crate answered on made inputs (tests/rust-answers of the repository), replayed on the package.

The judge is scripts/try/answers, whose runs of a program become calls of the package here. It reads texts by tomllib.
"""
import importlib.machinery
import importlib.util
import sys
import tempfile
import unittest
from pathlib import Path
from typing import Any
from unittest import mock

from cargo_manifest import Cause, ManifestError, canonical, completed, completed_table, table

from .places import TOP

SCRIPTS = TOP / "scripts" / "try"

try:
    import tomllib
except ImportError:
    raise unittest.SkipTest("the stored answers are read by tomllib, which Python has from 3.11 on") from None
if not (SCRIPTS / "answers").is_file():
    raise unittest.SkipTest("the stored answers stand in the repository alone")


def answers_script() -> Any:
    """The script as a module."""
    with mock.patch.object(sys, "path", [str(SCRIPTS), *sys.path]):
        loader = importlib.machinery.SourceFileLoader("answers", str(SCRIPTS / "answers"))
        spec = importlib.util.spec_from_loader("answers", loader)
        assert spec is not None
        module = importlib.util.module_from_spec(spec)
        loader.exec_module(module)
        return module


answers = answers_script()
runs = sys.modules["shared.runs"]


def said_by(call: Any, *words: Any) -> tuple[int, bytes, bytes]:
    """A call as a run of the program: status, standard output, standard error."""
    try:
        return 0, call(*words).encode("utf-8"), b""
    except ManifestError as error:
        is_other = error.cause is Cause.NO_LIBRARY_FILE
        said = f"other: {error}" if is_other else f"schema: {error.cause} at {error.path_text}"
        return 1, b"", f"error: {said}\n".encode("utf-8")


def said_by_both(text: Any, values: Any, *words: Any) -> tuple[int, bytes, bytes]:
    """What the call for a text says. The call for its table has to say the same by values, or to refuse alike."""
    said = said_by(text, *words)
    if said[0] == 0:
        assert runs.with_kinds(values(*words)) == runs.with_kinds(tomllib.loads(said[1].decode("utf-8")))
    else:
        assert said_by(values, *words) == said
    return said


def run(program: None, words: list[Any], text: str = "", folder: None = None) -> tuple[int, bytes, bytes]:
    """What is called in the place of the program with these words."""
    if words[0] == "complete":
        return said_by_both(completed, completed_table, words[1])
    assert words == ["canon", "-"]
    said = said_by_both(canonical, table, text)
    assert said_by(canonical, text.encode("utf-8")) == said
    return said


def listings_of(files: list[str]) -> dict[str, set[str]]:
    """The folders of a list of files, each with the names in it."""
    folders: dict[str, set[str]] = {".": set()}
    for file in files:
        path = file
        while path != ".":
            folder, _, name = path.rpartition("/")
            folder = folder or "."
            folders.setdefault(folder, set()).add(name)
            path = folder
    return folders


class StoredAnswers(unittest.TestCase):
    def judged(self, cases: Any, count: int) -> None:
        """Tries all cases, of which there are this many."""
        seen = 0
        with mock.patch.object(answers, "run", run):
            for name, difference in cases(None):
                seen += 1
                with self.subTest(name):
                    self.assertIsNone(difference)
        self.assertEqual(seen, count)

    def test_manifests(self) -> None:
        self.judged(answers.manifests, len(runs.stored("manifests.jsonl")))

    def test_real_folders(self) -> None:
        self.judged(answers.folders, len(runs.stored("completions.jsonl")))

    def test_lists_of_files(self) -> None:
        for number, case in enumerate(runs.stored("completions.jsonl"), 1):
            said = said_by_both(completed, completed_table, case["manifest"], listings_of(case["files"]))
            with self.subTest(f"the list of folder {number}"):
                self.assertIsNone(answers.differs(said, answers.wanted_of(case)))

    def test_a_real_folder_and_its_list_come_to_the_same_error(self) -> None:
        refused = [case for case in runs.stored("completions.jsonl") if "refused" in case]
        self.assertTrue(refused)
        for case in refused[:5]:
            with tempfile.TemporaryDirectory() as folder:
                on_disk = said_by(completed, answers.make(Path(folder), case))
            self.assertEqual(on_disk, said_by(completed, case["manifest"], listings_of(case["files"])))
