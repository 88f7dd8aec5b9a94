"""What the program manifest_check shows on terminals: the line of progress, and a screen that tmux keeps."""
import os
import pty
import re
import select
import shlex
import subprocess
import time

from .check_program import SECONDS, environment
from .tries import told

SELECT = re.compile(r"\x1b\[[0-9;]*m")


def run_with_terminal(case, *words):
    """The status of a run whose standard error is a terminal, what it writes there, and how long it took."""
    ours, theirs = pty.openpty()
    began = time.monotonic()
    run = subprocess.Popen([case.program, *words], cwd=case.folder, stdout=subprocess.DEVNULL, stderr=theirs, env=environment())
    os.close(theirs)
    written = b""
    while time.monotonic() - began < SECONDS * 10:
        if select.select([ours], [], [], 0.1)[0]:
            try:
                written += os.read(ours, 65536)
            except OSError:
                break
        elif run.poll() is not None:
            break
    status = run.wait(SECONDS)
    os.close(ours)
    return status, written, time.monotonic() - began


class Screen:
    """Terminals of some columns, each by a server of tmux of its own."""

    def __init__(self, case, columns):
        self.case = case
        self.columns = columns
        self.number = 0
        self.column = ""

    def call(self, *words):
        """One command of tmux."""
        settings = {**environment(), "LC_ALL": "C.UTF-8"}
        socket = self.case.folder / f"tmux-{self.columns}-{self.number}"
        all_words = ["tmux", "-f", "/dev/null", "-S", socket, *words]
        return subprocess.run(all_words, capture_output=True, text=True, timeout=SECONDS, env=settings).stdout

    def settled(self, *more):
        """What the screen has once it no longer changes."""
        said = None
        for _ in range(50):
            time.sleep(0.2)
            before, said = said, self.call("capture-pane", "-p", *more)
            if said == before:
                break
        return said

    def show(self, command, *more):
        """The screen after a command of a shell, by its lines; more words are for `capture-pane`."""
        self.number += 1
        done = self.case.folder / f"done-{self.columns}-{self.number}"
        line = f"{command}; touch {shlex.quote(str(done))}; sleep 60"
        size = ("-x", str(self.columns), "-y", "40")
        self.call("new-session", "-d", *size, "-c", str(self.case.folder), "env", "-u", "NO_COLOR", "sh", "-c", line)
        began = time.monotonic()
        while not done.exists() and time.monotonic() - began < 60:
            time.sleep(0.05)
        said = self.settled(*more).rstrip("\n").split("\n")
        self.column = self.call("display-message", "-p", "#{cursor_x}").strip()
        self.call("kill-server")
        return said

    def column_after(self, text):
        """The column in which the terminal stands after a text."""
        self.show(f"printf %s {shlex.quote(text)}")
        return int(self.column or -1)


def fault_of_carets(screen, lines, marked):
    """How the carets do not stand under a text in the first line that has it; or None."""
    index = next((number for number, line in enumerate(lines) if marked in line), None)
    if index is None or index + 1 >= len(lines):
        return "\n".join(lines)
    due = screen.column_after(lines[index][:lines[index].index(marked)])
    carets = lines[index + 1]
    is_right = carets.find("^") == due and carets.count("^") == len(marked)
    return None if is_right else f"column {due} is due\n" + "\n".join(lines)


def try_screen(case, columns):
    """The screen of a number of columns: carets under what is marked, colours, and none where NO_COLOR is set."""
    screen = Screen(case, columns)
    program = f"COLUMNS={columns} {shlex.quote(str(case.program))}"
    plain = screen.show(program)
    told(f"the carets on {columns} columns", fault_of_carets(screen, plain, '"itself"'))
    told(f"the lines on {columns} columns", None if any(" --> Cargo.toml:" in line for line in plain) else "\n".join(plain))
    colored = "\n".join(screen.show(program, "-e"))
    is_red = re.search(r"\x1b\[[0-9;]*91[0-9;]*m(?:\x1b\[[0-9;]*m)*error\[", colored)
    told(f"the colours on {columns} columns", None if is_red else repr(colored))
    without = "\n".join(screen.show(f"NO_COLOR=1 {program}", "-e"))
    told(f"NO_COLOR on {columns} columns", repr(without) if SELECT.search(without) or "error[" not in without else None)
