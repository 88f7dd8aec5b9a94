"""The programs that are measured: how one in Rust is built, what it answers, and how many instructions it takes."""
import os
import re
import shutil
import subprocess
import sys
from pathlib import Path

HERE = Path(__file__).resolve().parent


def stop(why):
    """Ends without figures, or with no more of them."""
    sys.exit(f"speed: {why}")


def built_by_cargo(room, source, dependencies, crate, settings):
    """A program in Rust over the dependencies of its Cargo.toml, built for release. cargo runs in the folder of a crate, so that
    it finds there what is configured for it, as a folder of its dependencies."""
    place = room / Path(source).stem
    (place / "src").mkdir(parents=True)
    shutil.copy(HERE / source, place / "src" / "main.rs")
    shutil.copy(HERE / "driver.rs", place / "src")
    head = '[package]\nname = "speed"\nversion = "0.1.0"\nedition = "2021"\n\n[workspace]\n\n[dependencies]\n'
    lines = "".join(f"{name} = {line}\n" for name, line in dependencies.items())
    (place / "Cargo.toml").write_text(head + lines, encoding="utf-8")
    settings = {**os.environ, **settings, "CARGO_TARGET_DIR": str(place / "target")}
    words = ["cargo", "build", "--release", "--offline", "--quiet", "--manifest-path", place / "Cargo.toml"]
    if subprocess.run(words, cwd=crate, env=settings, stdout=sys.stderr).returncode != 0:
        stop(f"{source} is not built")
    return place / "target" / "release" / "speed"


def on_one_processor():
    """Stays on one processor, and whatever it runs with it, so that nothing is taken to another one in between."""
    os.sched_setaffinity(0, {max(os.sched_getaffinity(0))})


def answered(program, *words, **settings):
    """The lines that a program answers, each by its words."""
    said = subprocess.run([program, *map(str, words)], env={**os.environ, **settings}, stdout=subprocess.PIPE, text=True)
    if said.returncode != 0:
        stop(f"{program.name} {' '.join(map(str, words))} is refused: {said.stdout}")
    return [line.split() for line in said.stdout.splitlines()]


def times(program, *words, **settings):
    """Of each step: the least time and the middle one, in nanoseconds, and what it answered."""
    lines = answered(program, *words, **settings)
    return {step: ((float(least), float(middle)), int(answer)) for step, least, middle, answer in lines}


def peak(program, step, file):
    """The most memory that a process had which took a step once, in bytes."""
    return 1024 * int(answered(program, "once", step, 1, file)[0][1])


def instructions(program, step, *files):
    """How many instructions one call of a step takes: those of a process with two calls less those of one with one."""
    counts = []
    for calls in "12":
        words = ["valgrind", "--tool=callgrind", "--callgrind-out-file=/dev/null", program, "once", step, calls, *files]
        said = subprocess.run(words, capture_output=True, text=True)
        found = re.search(r"Collected : (\d+)", said.stderr)
        if said.returncode != 0 or not found:
            stop(f"valgrind fails: {(said.stdout + said.stderr).strip().splitlines()[-1:]}")
        counts.append(int(found[1]))
    return counts[1] - counts[0]


def check_valgrind():
    """Ends where instructions cannot be counted."""
    if not shutil.which("valgrind"):
        stop("there is no command valgrind, by which instructions are counted")
