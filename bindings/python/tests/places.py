"""What several tests share: where things lie, folders that are made, and Pythons that are run."""
from __future__ import annotations

import os
import subprocess
import sys
from collections.abc import Iterable
from pathlib import Path
from typing import Optional

import cargo_manifest._library as loaded

PROJECT = Path(__file__).resolve().parent.parent
PACKAGE = PROJECT / "cargo_manifest"
TOP = PROJECT.parent.parent
VARIABLE = "CARGO_MANIFEST_LIBRARY"
# the file that this process has loaded
LIBRARY = loaded._LIBRARY._name


def make_files(folder: Path, names: Iterable[str]) -> None:
    """Makes empty files by their paths below a folder."""
    for name in names:
        (folder / name).parent.mkdir(parents=True, exist_ok=True)
        (folder / name).touch()


def python(code: str, *, library: Optional[str] = None, modules: Path = PROJECT) -> tuple[str, str]:
    """What another Python writes: its output, and the last line of its errors. The package is that of `modules`."""
    settings = {key: value for key, value in os.environ.items() if key not in (VARIABLE, "PYTHONPATH")}
    if library is not None:
        settings[VARIABLE] = library
    whole = f"import sys\nsys.path.insert(0, {str(modules)!r})\n{code}"
    words = [sys.executable, "-B", "-c", whole]
    done = subprocess.run(words, env=settings, capture_output=True, text=True, timeout=120, cwd="/")
    return done.stdout, (done.stderr.splitlines() or [""])[-1]
