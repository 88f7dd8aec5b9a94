"""The repository: where things lie in it, its files, and its crates."""
import shutil
import subprocess
import tomllib
from pathlib import Path

TOP = Path(__file__).resolve().parent.parent.parent
SCRIPTS = TOP / "scripts"
BINDINGS = TOP / "bindings"
CRATES = TOP / "crates"
# the folders of the built files, and the names of the libraries in them
X86 = "x86_64-unknown-linux-gnu"
ARM = "aarch64-unknown-linux-gnu"
NAME = "libcargo_manifest.a"
SHARED = "libcargo_manifest.so"
# folders that have no sources
NO_SOURCES = {".git", "out", "target", "__pycache__"}


def own_files(top, also_new=False):
    """The files of a repository, by their paths in it: those that git tracks and, where this is asked for, those that it neither
    tracks nor ignores; all but what is built, where the folder is no clone or there is no git."""
    if (top / ".git").exists() and shutil.which("git"):
        more = ["--cached", "--others", "--exclude-standard"] if also_new else []
        tracked = subprocess.run(["git", "-C", top, "ls-files", "-z", *more], capture_output=True, check=False)
        if tracked.returncode == 0:
            return sorted(filter(None, tracked.stdout.decode("utf-8").split("\0")))
    found = (path.relative_to(top) for path in top.rglob("*") if path.is_symlink() or path.is_file())
    return sorted(path.as_posix() for path in found if not NO_SOURCES.intersection(path.parts))


def manifest_of(folder):
    """The Cargo.toml of a folder."""
    return tomllib.loads((folder / "Cargo.toml").read_text(encoding="utf-8"))


def crates_of(top):
    """The crates of a repository: of each its kind and what it stands on, from crates.txt."""
    crates = {}
    for line in (top / "crates.txt").read_text(encoding="utf-8").splitlines():
        head, colon, names = line.partition("#")[0].partition(":")
        if colon:
            crates[head.split()[0]] = (head.split()[1:], names.split())
    return crates


def below(crates, crate):
    """The crates of the repository that a crate stands on, directly or not."""
    found = set()
    for name in crates[crate][1]:
        if name in crates:
            found |= {name} | below(crates, name)
    return found
