"""What is tried of the built library, for the scripts that call it: its calls, what its examples answer, and where a program
finds it."""
import importlib
import os
import re
import shutil
import sys

from .commands import run
from .repository import BINDINGS, NAME, SHARED, X86
from .tries import told

WARNINGS = ["-O2", "-Wall", "-Wextra", "-Werror", "-pedantic"]
FLAGS = ["-std=c11", *WARNINGS]
# the words for valgrind, by which a program ends with another status where it does what it must not
VALGRIND = ["valgrind", "-q", "--error-exitcode=9", "--leak-check=full"]
COUNTS = re.compile(r"^(\d+) passed, (\d+) failed$", re.M)
RESULT = re.compile(r"^test result: \w+\. (\d+) passed; (\d+) failed", re.M)

# the inputs of the examples: each with the status, standard output and a part of standard error that are expected
EXAMPLES = [
    ("name = 'a'\nedition = '2021'", 0, '[package]\nedition = "2021"\nname = "a"\n', ""),
    ("[package]\nname = 'p'\nauthors = [true]", 1, "", "package.authors[0]"),
]


def declared_calls():
    """The calls that the header declares."""
    header = (BINDINGS / "c" / "cargo_manifest.h").read_text(encoding="utf-8")
    return set(re.findall(r"^(?:struct manifest_answer|uint32_t) (\w+)\(", header, re.M))


def check_example(name, program, **more):
    """The example, a program or a list of words that runs it, answers each input as expected."""
    words = program if isinstance(program, list) else [program]
    for text, status, out, err in EXAMPLES:
        said = run(words, input=text, **more)
        is_right = (said.returncode, said.stdout) == (status, out) and err in said.stderr
        told(f"{name} on {text!r}", None if is_right else f"{said.returncode} {said.stdout!r} {said.stderr!r}")


def archive_alone(room, folder):
    """The archive of a folder of built files, copied into a folder in which it stands by itself."""
    (room / "lib").mkdir()
    return shutil.copy(folder / X86 / NAME, room / "lib" / NAME)


def python_package(folder, module="cargo_manifest"):
    """The package of bindings/python, or a module of it, over the shared library of a folder of built files."""
    os.environ["CARGO_MANIFEST_LIBRARY"] = str(folder / X86 / SHARED)
    sys.path.insert(0, str(BINDINGS / "python"))
    # (its own folder stays as it is)
    sys.dont_write_bytecode = True
    return importlib.import_module(module)
