"""`scripts/measure/speed check`: how long the program manifest_check takes for the manifests of a folder, in one run over all of
them and in one run for each, next to the program manifest_canon, which reads one manifest a run and prints its canonical text."""
import os
import re
import shutil
import subprocess
import tempfile
from pathlib import Path

from shared.commands import built_files
from shared.repository import X86

from .manifests import of_folder
from .programs import check_valgrind, on_one_processor, stop
from .tables import head, row

# how many manifests the large run has, which are copies of those of the folder
MANY = 10_000
ALONE = ("--no-workspace", "--no-config")


def seconds_of(words, folder):
    """The processor time of a process, of the program and of the kernel for it."""
    process = subprocess.Popen(words, cwd=folder, stdout=subprocess.DEVNULL, stderr=subprocess.DEVNULL)
    _, status, usage = os.wait4(process.pid, 0)
    process.returncode = os.waitstatus_to_exitcode(status)
    if process.returncode not in (0, 1):
        stop(f"{' '.join(map(str, words))} has the status {process.returncode}")
    return usage.ru_utime + usage.ru_stime


def instructions_of(words, folder):
    """The instructions of a process."""
    counted = ["valgrind", "--tool=callgrind", "--callgrind-out-file=/dev/null", *words]
    said = subprocess.run(counted, cwd=folder, stdout=subprocess.DEVNULL, stderr=subprocess.PIPE)
    found = re.search(rb"Collected : (\d+)", said.stderr)
    return int(found[1]) if found else stop("valgrind fails")


def figure_of(runs, count, turns):
    """The least and the middle time of these runs together, in microseconds for each of this many manifests."""
    times = sorted(sum(seconds_of(*run) for run in runs) for _ in range(turns))
    return f"{times[0] / count * 1e6:,.1f} ({times[len(times) // 2] / count * 1e6:,.1f})"


def copies(files, room):
    """As many copies of the manifests as the large run has, each with the files of its package."""
    for number in range(MANY):
        shutil.copytree(files[number % len(files)].parent, room / f"{number:05}")
    return room


def measure(words):
    """Measures, and prints a row for each kind of run."""
    if words.instructions:
        check_valgrind()
    check, canon = (built_files(words.built) / X86 / name for name in ("manifest_check", "manifest_canon"))
    on_one_processor()
    with tempfile.TemporaryDirectory() as name:
        room = Path(name)
        (room / "some").mkdir()
        files = of_folder(words.manifests, room / "some")
        (room / "many").mkdir()
        many, some, count = copies(files, room / "many"), room / "some", len(files)
        runs = {
            "a process that does nothing (`true`)": ([(["true"], some)] * count, count),
            "`manifest_canon canon`, a run for each": ([([canon, "canon", file], some) for file in files], count),
            "`manifest_check`, a run for each": ([([check, *ALONE, file], some) for file in files], count),
            "`manifest_check`, one run": ([([check], some)], count),
            "the same with `--no-workspace --no-config`": ([([check, *ALONE], some)], count),
            f"`manifest_check`, one run over {MANY:,}": ([([check], many)], MANY),
            f"the same with `--no-workspace --no-config`, over {MANY:,}": ([([check, *ALONE], many)], MANY),
        }
        head("For a manifest: microseconds of processor time", "run", "microseconds", *["instructions"] * words.instructions)
        for what, (of, number) in runs.items():
            is_small = number == count
            cells = [figure_of(of, number, words.turns if is_small else max(1, words.turns // 10))]
            if words.instructions:
                cells.append(f"{sum(instructions_of(*run) for run in of) // number:,}" if is_small else "-")
            row(what, *cells)
