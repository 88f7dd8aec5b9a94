"""`scripts/measure/speed library`: the typed Rust crate and the library under it, and others, the original or cargo_toml, each in
one process with it, over one malloc. docs/SPEED.md says how the figures are to be read."""
import tempfile
import tomllib
from pathlib import Path

from shared.archive import archive_alone
from shared.commands import built_files
from shared.crates import toml_of
from shared.repository import BINDINGS, NAME, X86, manifest_of
from shared.runs import stored

from .manifests import LARGE, SIZES, by_size, manifest, of_folder
from .programs import built_by_cargo, check_valgrind, instructions, on_one_processor, peak, stop, times
from .tables import head, over, row, shown

# the steps, where {} is the name of the other crate
STEPS = {
    "typed": "typed: `from_slice`",
    "typed-text": "typed: with `to_toml_string`",
    "document": "library: `toml` alone, `manifest_document`",
    "table": "library: the table alone, `manifest_table`",
    "canonical": "library: `canonical`",
    "original": "{}: `from_slice`",
    "original-text": "{}: with the text",
}
RATIOS = {
    "typed / {}": ("typed", "original"),
    "`canonical` / {} with the text": ("canonical", "original-text"),
    "typed / `toml` alone": ("typed", "document"),
}
COUNTED = ("typed", "original", "typed-text", "original-text", "table", "document")
PEAKS = {
    "nothing": "nothing: the text alone",
    "document": "`toml` of the toolchain alone, `manifest_document`",
    "table": "the library's call alone, `manifest_table`",
    "typed": "this crate, `from_slice`",
}
# what is done with all manifests of a folder: our step, and that of the other crate
DONE = {
    "completing, `complete_from_path`": ("typed-completed", "original-completed"),
    "writing, `to_toml_string`": ("typed-written", "original-written"),
    "reading and writing, `canonical`": ("canonical", "original-text"),
}


def put_inputs(room):
    """The inputs, by what they are called: three manifests, and the stored texts, each in a file."""
    inputs = {}
    for size, word in SIZES.items():
        file = room / f"{size}.toml"
        file.write_bytes(manifest(word))
        inputs[f"{file.stat().st_size:,} bytes"] = [file]
    texts = [case["input"] for case in stored("manifests.jsonl") if "refused" not in case]
    inputs["mean of {} stored texts"] = [room / f"{number:03}.toml" for number in range(len(texts))]
    for file, text in zip(inputs["mean of {} stored texts"], texts):
        file.write_text(text, encoding="utf-8", newline="")
    return inputs


def built(room, crate, archive):
    """The program over a crate, and what that is called."""
    other = manifest_of(crate)["package"]["name"]
    dependencies = {
        "original": f'{{ package = "{other}", path = "{crate}" }}',
        "proved": f'{{ package = "cargo-manifest-proved", path = "{BINDINGS / "rust"}" }}',
        "toml": f'"{toml_of(crate)}"',
    }
    program = built_by_cargo(room, "library.rs", dependencies, crate, {"MANIFEST_FFI": str(archive.parent)})
    packages = tomllib.loads((program.parents[2] / "Cargo.lock").read_text(encoding="utf-8"))["package"]
    toml = next(package["version"].partition("+")[0] for package in packages if package["name"] == "toml")
    return f"`{other}`, `toml` {toml}", program


def taken(program, turns, steps, files):
    """Of each step the least time and the middle one on one file in the mean, and on how many files it was taken."""
    return times(program, "time", turns, ",".join(steps), *files)


def print_inputs(name, program, inputs, turns):
    """The times of each step on each input, and the ratios. What was taken on some of the texts alone is left out."""
    of_inputs = [taken(program, turns, STEPS, files) for files in inputs.values()]
    counts = [found["typed"][1] for found in of_inputs]
    figures = [{step: figure for step, (figure, on) in found.items() if on == count} for found, count in zip(of_inputs, counts)]
    head("Microseconds", "step", *(title.format(count) for title, count in zip(inputs, counts)))
    for step, title in STEPS.items():
        row(title.format(name), *(shown(of[step], 1e3) if step in of else "" for of in figures))
    for title, (ours, theirs) in RATIOS.items():
        row(title.format(name), *(shown(over(of[ours], of[theirs])) if {ours, theirs} <= of.keys() else "" for of in figures))


def print_peaks(programs, file):
    """The peak of memory of a process that takes a step of ours once, or reads by another crate, and the ratio of ours to it."""
    first, *_ = programs.values()
    peaks = {title: peak(first, step, file) for step, title in PEAKS.items()}
    peaks |= {name: peak(program, "original", file) for name, program in programs.items()}
    head(f"Peak of memory, of {file.stat().st_size:,} bytes", "what reads it", "MB", "this crate over it")
    for title, most in peaks.items():
        ratio = "" if title == PEAKS["nothing"] else f"{peaks[PEAKS['typed']] / most:.2f}"
        row(title, f"{most / 1e6:,.0f}", ratio)


def print_instructions(name, program, inputs):
    """The instructions of one call of each step of COUNTED, on each input that is one file."""
    files = {title: files[0] for title, files in inputs.items() if len(files) == 1}
    counts = [{step: (instructions(program, step, file),) for step in COUNTED} for file in files.values()]
    head("Thousands of instructions, of one call", "step", *files)
    for step in COUNTED:
        row(STEPS[step].format(name), *(shown(of[step], 1e3) for of in counts))
    row(f"typed / {name}", *(shown(over(of["typed"], of["original"])) for of in counts))


def figure(found, step, files, ours=None):
    """The least time of a step, with the ratio of ours to it, and on how many files where it was not taken on all."""
    if step not in found:
        return "-"
    notes = [f"{found[ours][0][0] / found[step][0][0]:.2f}"] if ours else []
    notes += [f"of {found[step][1]}"] if found[step][1] < len(files) else []
    return f"{found[step][0][0] / 1e3:,.1f}" + (f" ({', '.join(notes)})" if notes else "")


def print_manifests(programs, files, turns):
    """The tables of the manifests of a folder: reading by classes, and what else is done with all of them."""
    head("Microseconds of `from_slice`", "bytes", "manifests", "this crate", *programs, "`toml` of the toolchain alone")
    for name, of in by_size(files):
        first, *_ = found = [taken(program, turns, ("typed", "original", "document"), of) for program in programs.values()]
        others = [figure(one, "original", of, "typed") for one in found]
        row(name, str(len(of)), figure(first, "typed", of), *others, figure(first, "document", of, "typed"))
    head("Microseconds, of all of them", "step", "this crate", *programs)
    steps = ["typed", "faults", *(step for both in DONE.values() for step in both)]
    first, *_ = found = [taken(program, turns, steps, files) for program in programs.values()]
    for name, (ours, theirs) in DONE.items():
        row(name, figure(first, ours, files), *(figure(one, theirs, files, ours) for one in found))
    row("finding every fault, `faults`", figure(first, "faults", files), *[""] * len(programs))
    print(f"\n`faults` takes {first['faults'][0][0] / first['typed'][0][0]:.2f} of `from_slice`.")


def measure(words):
    """Measures, and prints what was measured."""
    folder = built_files(words.built)
    if words.instructions:
        check_valgrind()
    if not (folder / X86 / NAME).is_file():
        stop(f"there is no archive {folder / X86 / NAME}")
    with tempfile.TemporaryDirectory() as name:
        room = Path(name)
        archive = archive_alone(room, folder)
        programs = dict(built(room / str(number), crate.resolve(), archive) for number, crate in enumerate(words.crate))
        on_one_processor()
        if words.manifests:
            print_manifests(programs, of_folder(words.manifests, room / "manifests"), words.turns)
            return
        inputs, large = put_inputs(room), room / "large of all.toml"
        large.write_bytes(manifest(LARGE))
        for name, program in programs.items():
            print_inputs(name, program, inputs, words.turns)
            if words.instructions:
                print_instructions(name, program, inputs)
        print_peaks(programs, large)
