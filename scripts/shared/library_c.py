"""What scripts/library does with C: the header as each standard of C and C++ reads it, the programs of bindings/c over an
archive, on this processor and, by an emulator, on aarch64, and the shared libraries, linked to and loaded."""
import os
import re
import shutil
from concurrent.futures import ThreadPoolExecutor
from pathlib import Path

from .archive import COUNTS, FLAGS, VALGRIND, WARNINGS, check_example
from .commands import run
from .repository import BINDINGS, SCRIPTS
from .runs import NO_LIBRARY, run as run_on, stored
from .tries import counted, ended, not_run, told
from .wanted import CAUSES, differs, wanted_of, wanted_of_manifests

C = BINDINGS / "c"
STANDARDS = {"c": ["c99", "c11", "c17"], "c++": ["c++98", "c++11", "c++17"]}
COMPILERS = {"c": ["gcc", "clang"], "c++": ["g++", "clang++"]}
# the programs of bindings/c: all of them, and those that are tried over a shared library, which has no heap functions to call
PROGRAMS = ("calls", "edits", "canonical", "checked", "listed", "own_heap", "blocks")
CALLERS = ("calls", "edits", "canonical", "checked")
LOADED = SCRIPTS / "shared" / "loaded.c"
SONAME = "libcargo_manifest.so.4"
ARM_COMPILER = "aarch64-linux-gnu-gcc"
ARM_COMMANDS = (ARM_COMPILER, "qemu-aarch64")
TWICE = '#include "cargo_manifest.h"\n' * 2
# with other places of the fields than those that the library was compiled with
PACKED = f"#include <stddef.h>\n#include <stdint.h>\n#pragma pack(1)\n{TWICE}"
# the lines of checked.c about a diagnostic, and about what is replaced
TOLD = re.compile(r"\d+:\d+: \w+\[[a-z0-9-]+\]: |    \d+:\d+: `.*` to `.*`$")
SOUND = "[package]\nname = 'a'\nversion = '0.1.0'\nedition = '2021'\n"
# manifests, words, and the status and the beginnings of the lines of checked.c
CHECKED = [
    (SOUND, [], 0, []),
    (SOUND, ["--publish"], 0, [f"1:1: warning[missing-{what}]: " for what in ("description", "license", "links")]),
    (SOUND + "[features]\ndefault = ['ful']\nfull = []\n", [], 1, ["6:12: error[unknown-feature]: ", "    6:12: `'ful'` to `\"full\"`"]),
    (SOUND + "[dev_dependencies]\nb = '1'\n", [], 0,
     ["5:2: warning[old-spelling]: ", "    5:2: `dev_dependencies` to `dev-dependencies`"]),
    ("\ufeff[package]\nname = 'a'\nversion = '0.1.0'\n", [], 0,
     ["1:1: warning[missing-edition]: ", "    4:1: `` to `edition = \"2015\"\\n`"]),
]
# the line of canonical.c about a fault of the schema
SCHEMA = re.compile(r"status 2, cause ([1-8]), bytes 0 to 0: (.+)\n", re.S)


def check_header():
    """The header is read without a warning, and where its fields lie otherwise it is not."""
    for language, standards in STANDARDS.items():
        there = [name for name in COMPILERS[language] if shutil.which(name)]
        if not there:
            not_run(f"the header as {language}", f"there is no command {' or '.join(COMPILERS[language])}")
        for compiler in there:
            for standard in standards:
                words = [compiler, f"-std={standard}", *WARNINGS, f"-I{C}", "-fsyntax-only", "-x", language, "-"]
                ended(f"the header, as {compiler} reads {standard}", run(words, input=TWICE))
                is_read = run(words, input=PACKED).returncode == 0
                told(f"the header with other places, as {compiler} reads {standard}", "it is read" if is_read else None)


def built(compiler, library, room, *more, names=PROGRAMS):
    """Compiles programs of bindings/c over a library alone, and says whether it could. The heap functions, which are in it, are
    compiled too."""
    ended(f"heap.c, by {compiler}", run([compiler, *FLAGS, "-c", "-o", os.devnull, C / "heap.c"]))
    for name in names:
        words = [compiler, *FLAGS, *more, "-o", room / name, C / f"{name}.c", library, "-pthread"]
        if not ended(f"{name}.c, by {compiler}", run(words)):
            return False
    return True


def with_line(said):
    """A run of canonical.c, with the line of manifest_canon where a fault of the schema is reported."""
    status, out, err = said
    fault = SCHEMA.fullmatch(err.decode("utf-8", "replace"))
    if fault:
        err = f"error: schema: {CAUSES[int(fault[1]) - 1]} at {fault[2]}\n".encode("utf-8")
    return status, out, err


def replay(cases):
    """Runs, side by side: each has a name, the words, the input, and what is expected of it."""
    def said(case):
        _, words, text, _ = case
        return with_line(run_on(words[0], words[1:], text))

    with ThreadPoolExecutor(os.cpu_count()) as pool:
        for (name, _, _, wanted), line in zip(cases, pool.map(said, cases)):
            told(name, differs(line, wanted))


def replay_manifests(name, words):
    """What the stored manifests become by canonical.c, which is run by these words."""
    replay([(f"{name}: {manifest}", words, text, wanted) for manifest, text, wanted in wanted_of_manifests()])


def replay_folders(name, words, room):
    """What the stored folders become by the lists of their files, with no folder made. The words and a manifest's path run
    a program that completes it by the list on standard input."""
    cases = []
    for number, case in enumerate(stored("completions.jsonl"), 1):
        manifest = room / f"{number}.toml"
        manifest.write_text(case["manifest"], encoding="utf-8", newline="")
        files = "".join(f"{file}\n" for file in case["files"])
        wanted = [f"error: {NO_LIBRARY}"] if "refused" in case else wanted_of(case)
        cases.append((f"{name}: the list of folder {number}", [*words, manifest], files, wanted))
    replay(cases)


def run_all(name, runner, room):
    """Runs the programs that were built, by a runner or by themselves."""
    counted(f"calls from {name}", run([*runner, room / "calls"]), COUNTS)
    counted(f"edits from {name}", run([*runner, room / "edits"]), COUNTS)
    counted(f"calls from {name} over a heap of its own", run([*runner, room / "own_heap"]), COUNTS)
    counted(f"blocks of the library's heap, from {name}", run([*runner, room / "blocks"]), COUNTS)
    check_checked(name, [*runner, room / "checked"])
    replay_manifests(name, [*runner, room / "canonical"])
    replay_folders(name, [*runner, room / "listed"], room)


def check_checked(name, words):
    """What checked.c prints of manifests: the status, the place, the level and the code of each diagnostic, and what is certain."""
    for text, more, status, due in CHECKED:
        said = run([*words, *more], input=text)
        lines = [found.group() for found in map(TOLD.match, said.stdout.splitlines()) if found]
        is_right = (said.returncode, lines, said.stderr) == (status, due, "")
        told(f"checked.c from {name} on {text!r}", None if is_right else f"{said.returncode} {said.stdout!r} {said.stderr!r}")


def check_valgrind(room):
    """No program of bindings/c reads what is not set, writes outside its memory, or loses any."""
    if not shutil.which("valgrind"):
        not_run("the calls from C under valgrind", "there is no command valgrind")
        return
    for name in ("calls", "edits", "own_heap", "blocks"):
        counted(f"{name}.c under valgrind", run([*VALGRIND, room / name]), COUNTS)
    check_checked("C under valgrind", [*VALGRIND, room / "checked"])
    manifest = room / "a-b.toml"  # (no Cargo.toml, which cargo would find above what is built in this folder)
    manifest.write_text("[package]\nname = 'a-b'\n[lib]\n", encoding="utf-8")
    for files, status in (("src/lib.rs\nsrc/bin/x/main.rs\n", 0), ("", 1)):
        said = run([*VALGRIND, room / "listed", manifest], input=files)
        is_right = said.returncode == status
        told(f"listed.c under valgrind on {files!r}", None if is_right else f"{said.returncode} {said.stderr}")


def check_c(archive, room):
    """The header, and the programs in C over the archive alone; what is said of the layout."""
    check_header()
    if not shutil.which("cc"):
        not_run("the calls from C", "there is no command cc")
        return None
    if not built("cc", archive, room):
        return None
    run_all("C", [], room)
    check_valgrind(room)
    check_example("the example in C", room / "canonical")
    layout = run([room / "calls", "layout"]).stdout
    check_musl(archive, room)
    return layout


def check_musl(archive, room):
    """The same programs, linked statically with musl."""
    if not shutil.which("musl-gcc"):
        not_run("the archive linked with musl", "there is no command musl-gcc")
    elif built("musl-gcc", archive, room, "-static"):
        run_all("C with musl", [], room)


def check_loaded(compiler, runner, library, room):
    """A program loads a shared library while it runs, and answers by it."""
    if not shutil.which(compiler):
        not_run(f"{library.name} in a program that {compiler} makes", f"there is no command {compiler}")
        return
    program = room / f"loaded-{compiler}"
    if ended(f"loaded.c, by {compiler}", run([compiler, *FLAGS, "-o", program, LOADED, "-pthread", "-ldl"])):
        check_example(f"{library}, loaded by a program of {compiler}", [*runner, program, library])


def has_arm():
    """Whether programs for aarch64 can be compiled and run."""
    lacking = [command for command in ARM_COMMANDS if not shutil.which(command)]
    if lacking:
        not_run("the libraries for aarch64", f"there is no command {' and no '.join(lacking)}")
    return not lacking


def check_arm(archive, room):
    """The programs in C over the archive for aarch64."""
    if has_arm() and built(ARM_COMPILER, archive, room, "-static"):
        run_all("C on aarch64", ["qemu-aarch64"], room)


def check_arm_shared(library, room):
    """The programs in C over the shared library for aarch64, and one that loads it while it runs."""
    if not has_arm():
        return
    loader = run([ARM_COMPILER, "-print-file-name=ld-linux-aarch64.so.1"]).stdout.strip()
    emulator = ["qemu-aarch64", "-L", Path(loader).resolve().parent.parent]
    check_loaded(ARM_COMPILER, emulator, library, room)
    shutil.copy(library, room / SONAME)
    if built(ARM_COMPILER, room / SONAME, room, names=CALLERS):
        name, runner = "C on aarch64, by the shared library", [*emulator, "-E", f"LD_LIBRARY_PATH={room}"]
        counted(f"calls from {name}", run([*runner, room / "calls"]), COUNTS)
        # (the stored answers are replayed over the archive, which has the same code)
        check_example(f"the example in {name}", [*runner, room / "canonical"])
