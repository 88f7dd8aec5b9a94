"""What the command cargo says of manifests in made folders: when it reads them, as warnings, and when it builds.

Each question is asked once, and by as few runs as answer it. Nothing is fetched: where a dependency is absent because nothing
may be fetched, that is no answer about the manifest. Cargo has an empty home of its own, so no configuration of the machine is
read, and several runs do not wait for one another.
"""
import functools
import os
import re
import shutil
import subprocess
import tempfile
import threading
from concurrent.futures import ThreadPoolExecutor
from pathlib import Path
from typing import NamedTuple

# how many runs of Cargo there are at a time
POOL = len(os.sched_getaffinity(0))
# what Cargo says where it only lacks what it may not fetch, or where a workspace has nothing to build
ABSENT = re.compile(
    r"no matching package named `.*` found\nlocation searched: .* index|can't checkout from '.*': you are in the offline mode"
    r"|failed to query replaced source|the workspace has no members"
)
# a refusal that rests on the version of Cargo, its channel, the compiler or the configuration
OF_HOST = re.compile(
    r"feature `.*` is required|requires `-Z ?[a-z-]+`|unknown Cargo\.toml feature|requires a nightly version of Cargo"
    r"|registry index was not found in any configuration|\[patch\] entry .* should be a URL or registry name"
    r"|is not supported by the following packages|incorrect value `.*` for codegen option `strip`|unknown crate type"
)
# warnings that rest on the lock file
OF_LOCK = re.compile(r"warning: (?:patch `.*` was not used in the crate graph|package replacement is not used)")
# lines of what Cargo writes that are about its own work
OWN_WORK = re.compile(r"^ *(Blocking|Locking|Checking|Compiling|Finished|Packaging|Packaged|Updating|Adding|Fresh|Dirty) ")
READ = ("metadata", "--no-deps", "--format-version", "1")
WARN = ("fetch",)
BUILD = ("check", "--all-targets")
# a binary that no package here has: Cargo refuses what it would not build, and compiles nothing
NO_BINARY = "no-such-binary"
RESOLVE = ("check", "--bin", NO_BINARY)
PACK = ("package", "--no-verify", "--allow-dirty")
# what Cargo says only of a package that it has read
IS_READ = re.compile(f"no bin target named|{ABSENT.pattern}")


class Answer(NamedTuple):
    """What Cargo says of a package: why it does not read it, what it warns of, and why it does not build it. `is_open` says
    that it cannot be known whether it builds it, as a dependency is absent."""

    read: str = ""
    warned: str = ""
    built: str = ""
    is_open: bool = False


@functools.cache
def commands():
    """The commands cargo and rustc: those of the toolchain, where rustup would look it up at each run."""
    said = subprocess.run(["rustc", "--print", "sysroot"], capture_output=True, text=True) if shutil.which("rustc") else None
    folder = Path(said.stdout.strip()) / "bin" if said and said.returncode == 0 else Path()
    found = {name: folder / name for name in ("cargo", "rustc")}
    return found if all(os.access(path, os.X_OK) for path in found.values()) else {"cargo": "cargo"}


class Room:
    """A temporary place in which Cargo is asked, by several at a time."""

    def __init__(self):
        self.folder = tempfile.TemporaryDirectory()
        self.path = Path(self.folder.name)

    def __enter__(self):
        return self

    def __exit__(self, *_):
        self.folder.cleanup()

    def own(self, name):
        """A folder of this name for the one who asks."""
        path = self.path / f"{name}-{threading.get_ident()}"
        path.mkdir(exist_ok=True)
        return path

    def run(self, folder, words):
        """One run of cargo in a folder: its status, and what it says, without the path and without its own work."""
        settings = {name: value for name, value in os.environ.items() if not name.startswith("CARGO_")}
        own = {"CARGO_TARGET_DIR": str(self.own("target")), "CARGO_HOME": str(self.own("home"))}
        settings |= {**own, "CARGO_TERM_COLOR": "never"}
        if "rustc" in commands():
            settings["RUSTC"] = os.fspath(commands()["rustc"])
        done = subprocess.run(
            [commands()["cargo"], *words, "--offline"], cwd=folder, env=settings, capture_output=True, timeout=600
        )
        said = done.stderr.decode("utf-8", "replace").replace(f"{os.path.realpath(folder)}/", "")
        return done.returncode, "\n".join(line for line in said.split("\n") if not OWN_WORK.match(line)).strip()

    def refusal(self, folder, words):
        """Why Cargo refuses, or an empty text."""
        return refusal(*self.run(folder, words))

    def read(self, folder, words, is_refused):
        """Why Cargo refuses to read the package in a folder; or, where it reads it, what it says to these words, for which it
        reads it too. Where no refusal is expected these come first, and are all that is asked if they show that it is read."""
        said = "" if is_refused else self.run(folder, words)
        if said and (said[0] == 0 or IS_READ.search(said[1])):
            return "", said[1]
        refused = self.refusal(folder, READ)
        return (refused, "") if refused else ("", (said or self.run(folder, words))[1])

    def asked(self, folder, has_errors=True):
        """All that Cargo says of the package in a folder; whether it builds it only where errors are reported."""
        read, said = self.read(folder, WARN, has_errors)
        if read:
            return Answer(read)
        warned = warnings_of(said)
        built = self.refusal(folder, BUILD) if has_errors else ""
        is_open = ABSENT.search(built) is not None
        return Answer("", warned, "" if is_open else built, is_open)

    def each(self, function, things):
        """What a function answers of each of these things, several at a time, in their order."""
        with ThreadPoolExecutor(POOL) as pool:
            yield from pool.map(function, things)


def is_there():
    return shutil.which("cargo") is not None


def version():
    """What `cargo --version` says."""
    return subprocess.run(["cargo", "--version"], capture_output=True, text=True).stdout.strip()


def warnings_of(said):
    """The warnings in what Cargo says, each with the lines that belong to it, but for those that rest on the lock file."""
    kept, goes_on = [], False
    for line in said.split("\n"):
        if line.startswith(("warning: ", "error")):
            goes_on = line.startswith("warning: ") and not OF_LOCK.match(line)
        if goes_on:
            kept.append(line)
    return "\n".join(kept)


def refusal(status, said):
    """What Cargo says where it refuses, from the line of the error on."""
    if status == 0:
        return ""
    found = re.search(r"^error", said, re.M)
    return said[found.start():] if found else said or f"status {status}"
