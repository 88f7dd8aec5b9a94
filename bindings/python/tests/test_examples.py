"""The examples of the doc comments and of README.md, which have to answer what stands there."""
import doctest
import os
import re
import tempfile
import typing
import unittest
from pathlib import Path

import cargo_manifest
from cargo_manifest import _calls, _diagnostics, _edits, _error, _faults, _places, _positions, _unresolved

from .places import PROJECT, make_files


CALLS = ("canonical", "completed", "resolved", "resolved_completed", "table")
FINDERS = ("diagnostics", "faults", "ignored", "refusals", "unfound_targets", "unused_keys")
OF_TEXTS = ("edited", "fixed", "positions", "replacements")


class Readme(unittest.TestCase):
    def test_examples(self) -> None:
        text = (PROJECT / "README.md").read_text(encoding="utf-8")
        blocks = re.findall("^```python\n(.*?)^```$", text, re.M | re.S)
        # (an empty line is one of what is printed, unless an example follows)
        code = "\n".join(re.sub(r"\n\n(?!>>> )", "\n<BLANKLINE>\n", block) for block in blocks)
        test = doctest.DocTestParser().get_doctest(code, {}, "README.md", "README.md", 0)
        self.assertGreater(len(test.examples), 10)
        with tempfile.TemporaryDirectory() as folder:
            make_files(Path(folder), ["my-tool/Cargo.toml", "my-tool/src/main.rs"])
            Path(folder, "my-tool/Cargo.toml").write_text("package.name = 'my-tool'", encoding="utf-8")
            before = os.getcwd()
            os.chdir(folder)
            self.addCleanup(os.chdir, before)
            said: list[str] = []
            result = doctest.DocTestRunner().run(test, out=said.append)
            os.chdir(before)
        self.assertEqual(result.failed, 0, "".join(said))


class Documented(unittest.TestCase):
    def test_each_public_name_has_a_doc_comment(self) -> None:
        for name in cargo_manifest.__all__:
            self.assertTrue(getattr(cargo_manifest, name).__doc__, name)
        for call in CALLS + FINDERS + OF_TEXTS:
            self.assertIn(">>> ", getattr(cargo_manifest, call).__doc__)
            self.assertRegex(getattr(cargo_manifest, call).__doc__, "[Rr]aises ")

    def test_types_can_be_checked(self) -> None:
        returned = {call: typing.get_type_hints(getattr(cargo_manifest, call))["return"] for call in CALLS}
        self.assertEqual(returned, {**dict.fromkeys(CALLS, str), "table": dict[str, typing.Any]})
        self.assertIn("cause", typing.get_type_hints(cargo_manifest.ManifestError))
        self.assertTrue((PROJECT / "cargo_manifest" / "py.typed").is_file())


def load_tests(loader: unittest.TestLoader, tests: unittest.TestSuite, pattern: str) -> unittest.TestSuite:
    for module in (cargo_manifest, _calls, _diagnostics, _edits, _error, _faults, _places, _positions, _unresolved):
        tests.addTests(doctest.DocTestSuite(module))
    return tests
