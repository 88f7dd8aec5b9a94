"""The types of the package, by the strictest rules of mypy, where that is installed."""
import shutil
import subprocess
import tempfile
import unittest

from .places import PACKAGE


@unittest.skipUnless(shutil.which("mypy"), "there is no command mypy")
class Types(unittest.TestCase):
    def test_the_package_is_strict(self) -> None:
        with tempfile.TemporaryDirectory() as room:
            words = ["mypy", "--strict", "--cache-dir", room, str(PACKAGE)]
            run = subprocess.run(words, capture_output=True, text=True, check=False)
        self.assertEqual(run.returncode, 0, run.stdout + run.stderr)
