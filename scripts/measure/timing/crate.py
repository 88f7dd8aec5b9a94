"""`scripts/measure/speed crate`: the crate cargo_manifest, called by a driver in C, and the Rust crate cargo-manifest where its
place is given, by turns. docs/SPEED.md says how the figures are to be read."""
import datetime
import os
import shutil
import subprocess
import sys
import tempfile
from pathlib import Path
from statistics import median

from shared.crates import toml_of
from shared.repository import CRATES, TOP, below, crates_of

from .manifests import LARGE, SIZES, manifest
from .programs import HERE, built_by_cargo, check_valgrind, instructions, peak, stop, times
from .tables import NAMES, STEPS, beyond, head, over, row, shown

# What is freed at the end of the heap goes back to the kernel past a limit of the C library, which follows the largest block
# freed before, and is asked for again in the next turn. A step that passes it pays for fresh pages in every turn, and another
# step may not. With the first setting what is freed is kept, so that each step finds its pages there; with the second the
# library is as it is set by default.
KEPT = {"MALLOC_TRIM_THRESHOLD_": str(1 << 28), "MALLOC_TOP_PAD_": str(1 << 26), "MALLOC_MMAP_THRESHOLD_": str(1 << 25)}
SETTINGS = {"kept": KEPT, "given": {}}
TITLES = {"kept": "with what is freed kept", "given": "with what is freed given back to the kernel"}
# of each size, and of each number of files that are found: how many calls a turn has, and how many turns a round
READ = {"small": (500, 60), "typical": (10, 60), "large": (1, 20)}
COMPLETED = {"200": (10, 60), "2000": (1, 60), "20000": (1, 3)}
FOUND = {"200": "200 found", "2000": "2,000 found", "20000": "20,000 found"}
PEAKS = {"nothing": "the input alone", "toml": "toml alone", "from_slice": "from_slice"}
PROGRAMS = {"ours": "ours", "Rust": "Rust crate"}


def toolchain():
    """The folder of the toolchain."""
    if not shutil.which("rt"):
        stop("the command rt is not there: the toolchain is not installed or not in PATH")
    return Path(subprocess.run(["rt", "doc"], stdout=subprocess.PIPE, check=True, text=True).stdout.strip()).parent


def do(words, why, **more):
    """Runs a command of the toolchain, which has to end with status 0."""
    if subprocess.run(words, stdout=sys.stderr, **more).returncode != 0:
        stop(why)


def build_ours(room):
    """The driver in C over a static library of the steps. Their crate stands in a repository of its own, with copies of the
    crates below it: these are proved first in their own folders, where that is kept, and rt takes what is kept there."""
    kit, copy, crates = toolchain(), room / "repository", crates_of(TOP)
    steps, lines = copy / "crates" / "manifest_speed", []
    do(["rt", "lib"], "the crate cargo_manifest is not proved", cwd=CRATES / "cargo_manifest")
    for crate in sorted({"cargo_manifest"} | below(crates, "cargo_manifest")):
        for part in ("src", "specs", "proofs"):
            if (CRATES / crate / part).is_dir():
                shutil.copytree(CRATES / crate / part, copy / "crates" / crate / part)
        lines.append(f"{crate}: {' '.join(crates[crate][1])}\n")
    (steps / "src").mkdir(parents=True)
    (copy / "crates.txt").write_text("".join([*lines, "manifest_speed staticlib: cargo_manifest toml\n"]), encoding="utf-8")
    shutil.copy(TOP / "HANDLES", copy)
    shutil.copy(HERE / "crate_steps", steps / "src" / "lib.rt")
    do(["rt", "lib"], "the library of the steps is not proved or not built", cwd=steps)
    driver, program = room / "crate.o", room / "ours"
    do([kit / "toolchain" / "bin" / "clang", "-O2", "-c", "-o", driver, HERE / "crate.c"], "crate.c does not compile")
    words = [kit / "bin" / "rattle-link", "--target", "x86_64-unknown-linux-gnu", "--toolchain", kit / "toolchain", "-o", program]
    words += [driver, steps / "out" / "libmanifest_speed.a", kit / "c" / "libos_c.a", kit / "c" / "liblibc_c.a"]
    do(words, "the driver does not link")
    return program


class Inputs:
    """The files of the inputs."""

    def __init__(self, room):
        self.read = {size: room / f"{size}.toml" for size in READ}
        self.large, self.found = room / "large of all.toml", room / "found.toml"
        self.names = {count: room / f"{count}.names" for count in COMPLETED}
        for size, file in self.read.items():
            file.write_bytes(manifest(SIZES[size]))
        self.large.write_bytes(manifest(LARGE))
        self.found.write_bytes(manifest("small") + b'edition = "2021"\n')
        for count, file in self.names.items():
            file.write_text("".join(f"f{number:05}.rs\n" for number in range(int(count))), encoding="utf-8")


class Figures:
    """What was measured of each program: the times of each round, the peaks of memory, and the instructions of a call."""

    def __init__(self, programs):
        self.programs, self.times, self.peaks, self.counts = list(programs), {}, {}, {}

    def put_times(self, program, size, setting, found):
        """Keeps the times of a round, and stops where a completion did not find what was listed."""
        for step, (figures, answer) in found.items():
            if step in ("prepared", "completed") and str(answer) != size:
                stop(f"{program} answers {answer} binaries of {size}")
            self.times.setdefault((setting, program, size, step), []).append(figures)

    def time(self, setting, program, size, step):
        """The least time of all rounds, and the middle one of their middle ones, or None. A completion is what the step
        `completed` takes beyond the step `prepared`."""
        if step == "completion":
            return beyond(*(self.time(setting, program, size, part) for part in ("completed", "prepared")))
        rounds = self.times.get((setting, program, size, step))
        return rounds and (min(least for least, _ in rounds), median(middle for _, middle in rounds))

    def instructions(self, _, program, size, step):
        """How many instructions one call takes, or None."""
        if step == "completion":
            both = [self.instructions(_, program, size, part) for part in ("completed", "prepared")]
            return None if None in both else beyond(*both)
        return self.counts.get((program, size, step))


def take_round(figures, name, program, inputs):
    """Takes all times of a program once, by each setting."""
    for setting, settings in SETTINGS.items():
        for size, (calls, turns) in READ.items():
            figures.put_times(name, size, setting, times(program, "time", inputs.read[size], calls, turns, **settings))
        for count, (calls, turns) in COMPLETED.items():
            words = ["complete", inputs.found, inputs.names[count], calls, turns]
            figures.put_times(name, count, setting, times(program, *words, **settings))


def count_instructions(figures, name, program, inputs):
    """Counts the instructions of one call of each step."""
    for size in READ:
        # (the Rust crate has no step `inspect`)
        for step in [*STEPS][: 4 if name == "ours" else 3]:
            figures.counts[name, size, step] = (instructions(program, step, inputs.read[size]),)
    # (the Rust crate takes 7,000 million instructions where 20,000 are found, which valgrind takes minutes for)
    for count in [*COMPLETED][: 3 if name == "ours" else 2]:
        for step in ("prepared", "completed"):
            figures.counts[name, count, step] = (instructions(program, step, inputs.found, inputs.names[count]),)


def print_row(name, each, unit):
    """A row with the figure of each program, and the ratio of ours to that of the other one."""
    ratio = [shown(over(*each))] if len(each) == 2 else []
    row(name, *(shown(figure, unit) for figure in each), *ratio)


def lines():
    """The rows of reading, writing and completing: each with its name, its input and its step."""
    yield from ((f"{name}: {what}", size, step) for size, name in NAMES.items() for step, what in STEPS.items())
    yield from ((f"completion, {name}", count, "completion") for count, name in FOUND.items())


def print_ratios(figures):
    """Of the steps that both have, the least times with what is freed kept, and the ratios to the Rust crate: these, with what is
    freed given back, and by instructions."""
    head("Microseconds, and ratios", "step", "ours", "Rust crate", "ours / Rust", "given back", "by instructions")
    for name, size, step in lines():
        ways = (figures.time, "kept"), (figures.time, "given"), (figures.instructions, None)
        kept, *others = ([of(way, program, size, step) for program in PROGRAMS] for of, way in ways)
        if None not in kept:
            ratios = [over(*pair) for pair in (kept, *others)]
            row(name, *(shown(figure[:1], 1e3) for figure in kept), *(shown(ratio and ratio[:1]) for ratio in ratios))


def print_table(figures, title, of, setting, unit):
    """A table of reading, writing and completing. What follows from the rows of one program stands below them."""
    names = [PROGRAMS[program] for program in figures.programs]
    head(title, "step", *names, *(["ours / Rust"] if len(names) == 2 else []))
    for name, size, step in lines():
        print_row(name, [of(setting, program, size, step) for program in figures.programs], unit)
    empty = [""] * (len(names) == 2)
    for size, name in NAMES.items():
        # (Rust's from_slice makes no table of `toml` first)
        read, alone = (of(setting, "ours", size, step) for step in ("from_slice", "toml"))
        row(f"{name}: from_slice beyond toml, over toml", shown(over(beyond(read, alone), alone)), *empty * 2)
    many, few = ([of(setting, program, count, "completion") for program in figures.programs] for count in ("20000", "2000"))
    row("20,000 found over 2,000 found", *map(shown, map(over, many, few)), *empty)


def print_all(figures, counts):
    """All tables, and first the one that docs/SPEED.md has."""
    if len(figures.programs) == 2:
        print_ratios(figures)
    for setting, title in TITLES.items():
        print_table(figures, f"Microseconds, {title}", figures.time, setting, 1e3)
    if counts:
        print_table(figures, "Thousands of instructions, of one call", figures.instructions, None, 1e3)
    names = [PROGRAMS[program] for program in figures.programs]
    head("Peak of memory, in MB", "step", *names, *(["ours / Rust"] if len(names) == 2 else []))
    for step, what in PEAKS.items():
        print_row(f"10 MB: {what}", [(figures.peaks[program, step],) for program in figures.programs], 1e6)


def measure(words):
    """Measures, and prints what was measured."""
    if words.instructions:
        check_valgrind()
    with tempfile.TemporaryDirectory() as folder:
        room = Path(folder)
        programs = {"ours": build_ours(room)}
        if words.rust:
            crate = words.rust.resolve()
            over_both = {"original": f'{{ package = "cargo-manifest", path = "{crate}" }}', "toml": f'"{toml_of(crate)}"'}
            programs["Rust"] = built_by_cargo(room, "crate.rs", over_both, crate, {})
        inputs, figures = Inputs(room), Figures(programs)
        kit = subprocess.run(["rt", "version"], stdout=subprocess.PIPE, check=True, text=True).stdout.strip()
        print(f"{kit}, {datetime.date.today()}, load {os.getloadavg()[0]:.2f}", flush=True)
        for _ in range(words.rounds):
            for name, program in programs.items():
                take_round(figures, name, program, inputs)
        for name, program in programs.items():
            for step in PEAKS:
                figures.peaks[name, step] = peak(program, step, inputs.large)
            if words.instructions:
                count_instructions(figures, name, program, inputs)
    print_all(figures, words.instructions)
