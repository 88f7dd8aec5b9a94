"""What the scripts share that run manifest_canon or its like: what the Rust crate answered on made inputs, the runs, and how
they are judged.

What is printed is read by Python's tomllib, and tables are compared strictly in the kinds of their values: a boolean is no
number, a float is no whole number, and each kind of date-times is one of its own.
"""
import datetime
import json
import os
import re
import select
import subprocess
import sys
import tomllib
from pathlib import Path
from typing import NamedTuple

from .repository import SCRIPTS, TOP
from .tries import finish, told

ANSWERS = TOP / "tests" / "rust-answers"
NO_LIBRARY = "can't find library, rename file to `src/lib.rs` or specify lib.path"


def stored(name):
    """The objects of a file of lines in tests/rust-answers."""
    with open(ANSWERS / name, encoding="utf-8") as file:
        return [json.loads(line) for line in file]


class Link(str):
    """In place of a file's text: a link to this path."""


def make_files(folder, files):
    """Makes files of their texts, by their paths in a folder; of a `Link` a link, and where a path ends with `/` a folder."""
    for name, text in files.items():
        path = os.path.join(os.fsencode(folder), os.fsencode(name))
        os.makedirs(os.path.dirname(path), exist_ok=True)
        if isinstance(text, Link):
            os.symlink(os.fsencode(text), path)
        elif not path.endswith(b"/"):
            with open(path, "wb") as file:
                file.write(os.fsencode(text))


def make(folder, case):
    """Makes the folder of a completion, and answers the path of its manifest."""
    make_files(folder, {name: case["manifest"] if name == "Cargo.toml" else "" for name in case["files"]})
    return folder / "Cargo.toml"


def with_kinds(value):
    """A value with the kind of each value in it, so that what is equal is equal in kinds too."""
    if isinstance(value, dict):
        return "table", {key: with_kinds(inner) for key, inner in value.items()}
    if isinstance(value, list):
        return "array", [with_kinds(inner) for inner in value]
    if isinstance(value, datetime.datetime):
        return ("local date-time" if value.tzinfo is None else "offset date-time"), value.isoformat()
    if isinstance(value, (datetime.date, datetime.time)):
        return type(value).__name__, value.isoformat()
    if isinstance(value, float):
        return "float", repr(value)
    return type(value).__name__, value


def first_difference(said, wanted, path=""):
    """Where two values of `with_kinds` differ first, and what stands there."""
    if said[0] == wanted[0] == "table":
        for key in sorted(said[1].keys() | wanted[1].keys()):
            below = f"{path}.{key}" if path else key
            if key not in wanted[1]:
                return f"{below} is printed, and is not wanted"
            if key not in said[1]:
                return f"{below} is wanted, and is not printed"
            if said[1][key] != wanted[1][key]:
                return first_difference(said[1][key], wanted[1][key], below)
    if said[0] == wanted[0] == "array" and len(said[1]) == len(wanted[1]):
        for index, (left, right) in enumerate(zip(said[1], wanted[1])):
            if left != right:
                return first_difference(left, right, f"{path}[{index}]")
    return f"{path} is {said}, where {wanted} is wanted"


def run(program, words, text="", folder=None):
    """Status, standard output and standard error of one run on this input, in this working folder."""
    try:
        done = subprocess.run(
            [program, *words], input=text.encode("utf-8"), capture_output=True, timeout=60, cwd=folder
        )
    except subprocess.TimeoutExpired:
        return "of a run that does not end", b"", b""
    return done.returncode, done.stdout, done.stderr


class Measured(NamedTuple):
    """What a measured run said, and the most memory that it had at once, in kB."""

    status: int
    out: bytes
    err: bytes
    memory: int


class Runner:
    """Runs of one program with little overhead, for many short ones: its streams are files in memory.

    The memory that is reported is at least that of the process which calls, since the system counts from there.
    """

    def __init__(self, program, seconds):
        self.program = os.fspath(program)
        self.seconds = seconds
        self.streams = [os.memfd_create(name) for name in ("input", "output", "errors")]

    def close(self):
        for stream in self.streams:
            os.close(stream)

    def run(self, words, data=b""):
        """One run with these words on this input. One that lasts too long is ended, which its status says."""
        for stream in self.streams:
            os.ftruncate(stream, 0)
            os.lseek(stream, 0, os.SEEK_SET)
        os.pwrite(self.streams[0], data, 0)
        actions = [(os.POSIX_SPAWN_DUP2, stream, number) for number, stream in enumerate(self.streams)]
        child = os.posix_spawn(self.program, [self.program, *words], os.environ, file_actions=actions)
        handle = os.pidfd_open(child)
        is_over = select.select([handle], [], [], self.seconds)[0]
        if not is_over:
            os.kill(child, 9)
        os.close(handle)
        _, status, used = os.wait4(child, 0)
        out, err = (os.pread(stream, os.fstat(stream).st_size, 0) for stream in self.streams[1:])
        status = os.waitstatus_to_exitcode(status) if is_over else "of a run that does not end"
        return Measured(status, out, err, used.ru_maxrss)


def differs_from_table(run_said, wanted):
    """How a run differs from one that prints this table, or None."""
    status, out, err = run_said
    if status != 0 or err:
        return f"status {status}, {err!r}, where a table is wanted"
    try:
        table = tomllib.loads(out.decode("utf-8"))
    except ValueError as fault:
        return f"what is printed is no TOML: {fault}"
    said, wanted = with_kinds(table), with_kinds(wanted)
    return None if said == wanted else first_difference(said, wanted)


def differs_from_refusal(run_said, wanted, wanted_status=1):
    """How a run differs from one that refuses with one of these lines, or one line of this pattern; or None."""
    status, out, err = run_said
    line = err.decode("utf-8", "replace")
    is_pattern = isinstance(wanted, re.Pattern)
    fits = wanted.fullmatch(line[:-1]) if is_pattern else line[:-1] in wanted
    if status == wanted_status and not out and line.endswith("\n") and fits:
        return None
    due = wanted.pattern if is_pattern else " or ".join(wanted)
    return f"status {status}, {len(out)} bytes printed, {err!r}, where status {wanted_status} is wanted with {due}"


def program_to_run(named):
    """The program that is named, or else the one that scripts/program names; None where there is none."""
    if named:
        program = Path(named[0])
    else:
        built = subprocess.run([SCRIPTS / "program"], stdout=subprocess.PIPE, text=True)
        program = Path(built.stdout.rstrip("\n"))
    return program.resolve() if program.is_file() else None


def count(*tries, first=1):
    """Tries all cases, and ends with how many passed: each call yields them, by a name and how the program differs or None.

    The program is the word of this number after the script's name, if it is there.
    """
    program = program_to_run(sys.argv[first:])
    if program is None:
        finish("there is no program to run: scripts/program says why")
    for cases in tries:
        for name, difference in cases(program):
            told(name, difference)
    finish("there is no case")
