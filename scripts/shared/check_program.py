"""Runs of the program manifest_check in folders with files, and what it has to write and to leave there."""
import os
import shutil
import subprocess
import tempfile
from pathlib import Path

from .tries import told

GOOD = '[package]\nname = "a"\nversion = "0.1.0"\nedition = "2021"\n'
# a feature that enables itself, at line 7, columns 11 to 19
ITSELF = GOOD + '\n[features]\nitself = ["itself"]\n'
ITSELF_LINE = "Cargo.toml:7:11: error[feature-enables-itself]: feature `itself` depends on itself"
MEMBER = GOOD.replace('"a"', '"{0}"') + '\n[features]\nitself = ["itself"]\n'
# a spelling that Cargo ignores, at line 7, with a certain suggestion
SPELLING = GOOD + "\n[profile.release]\nopt_level = 3 # quick\n"
MENDED = GOOD + "\n[profile.release]\nopt-level = 3 # quick\n"
SPELLING_LINE = "Cargo.toml:7:1: warning[ignored-spelling]: "
SECONDS = 600
# another user, where this one is root, who may read everything
OTHER_USER = ("setpriv", "--reuid=65534", "--regid=65534", "--clear-groups")


def package(text=GOOD, folder=""):
    """The files of a package."""
    return {f"{folder}Cargo.toml": text, f"{folder}src/lib.rs": ""}


def named(name, text=GOOD):
    """A manifest with another name of the package."""
    return text.replace('"a"', f'"{name}"', 1)


def environment(**more):
    """The environment without what changes the words of the program."""
    left_out = ("NO_COLOR", "COLUMNS", "CARGO_HOME")
    return {name: value for name, value in os.environ.items() if name not in left_out} | more


class Case:
    """A folder with files, and runs of the program in it."""

    def __init__(self, program, room, name, files=None):
        self.program = program
        self.name = name
        self.folder = Path(tempfile.mkdtemp(dir=room))
        self.folder.chmod(0o755)
        for path, text in (files or {}).items():
            self.write(path, text)

    def write(self, path, text):
        """Writes a file of the folder."""
        (self.folder / path).parent.mkdir(parents=True, exist_ok=True)
        (self.folder / path).write_bytes(text if isinstance(text, bytes) else text.encode())

    def run(self, *words, before=(), **more):
        """One run, after the words of another command, with what it writes as bytes."""
        settings = {"env": environment(), "timeout": SECONDS, "capture_output": True, "cwd": self.folder, **more}
        return subprocess.run([*before, self.program, *words], check=False, **settings)

    def expect(self, *words, status=0, lines=None, starts=None, err=b"", **more):
        """A run that has to answer this status, write these lines, or lines that start so, and this part of standard error."""
        said = self.run(*words, **more)
        out = said.stdout.decode().splitlines()
        is_right = said.returncode == status and err in said.stderr
        if lines is not None:
            is_right = is_right and out == lines
        if starts is not None:
            is_right = is_right and len(out) == len(starts) and all(a.startswith(b) for a, b in zip(out, starts))
        is_quiet = not any(byte < 32 and byte != 10 for byte in said.stderr)
        told(f"{self.name} {' '.join(map(os.fspath, words))}",
             None if is_right and is_quiet else f"{said.returncode}\n{said.stdout.decode()}{said.stderr.decode()}")
        return said

    def is_text(self, path, text):
        """A file has to have this text, and no other file has to be left in its folder."""
        there = (self.folder / path).read_bytes()
        told(f"{self.name}: {path}", None if there == text.encode() and not self.left() else f"{there!r} {self.left()}")

    def left(self):
        """The files that the program has made, and has not put in the place of another."""
        return [path.name for path in self.folder.rglob("*.tmp")]

    def remove(self):
        """Removes the folder."""
        shutil.rmtree(self.folder)


def other_user():
    """The words before a command that is not to be run by root, or None where there is no such command."""
    if os.geteuid() != 0:
        return ()
    return OTHER_USER if shutil.which(OTHER_USER[0]) else None
