"""What scripts/try/typed and scripts/try/rust_crate share: the programs of tests/programs, built over one crate or the other,
what is passed to them, and which stored answers of tests/rust-answers are theirs."""
import os
import re
import shutil
import subprocess
import tempfile
from pathlib import Path

from .repository import BINDINGS, TOP
from .runs import ANSWERS, make, stored
from .tries import counts, not_run, told

PROGRAMS = TOP / "tests" / "programs"
# the programs that a user of either crate could have written
BOTH = ("debug", "registry", "planner", "api", "values")
# those of them that want serde and toml
WITH_SERDE = ("features", "serialized")
# those that ask for more than the original has
OURS = ("changes", "threads", "stack")
# of the changes and the values that are made at random
SEED = "1"
# how many values are printed
VALUES = 300
# how a line of `values` begins whose text is not read back
NOT_READ = "not read back: "
# how many faults of a file are reported
TOLD = 5

STRING = r'"(?:[^"\\]|\\.)*"'
# a string, which may hold anything; or what {:?} prints of an inherited dependency, up to the field that is taken out, and it
INHERITED = re.compile(
    rf"{STRING}|(InheritedDependencyDetail \{{ workspace: True, features: (?:None|Some\(\[(?:{STRING}(?:, )?)*\]\)), "
    r"optional: (?:None|Some\((?:true|false)\)))(, default_features: (None|Some\((true|false)\)))(?= \})"
)


def cases(pairs):
    """Texts with the files next to them, as the programs read them (cases.rs)."""
    parts = []
    for text, files in pairs:
        data = text.encode("utf-8")
        parts += [f"{len(data)} {len(files)}\n".encode(), data, *(f"{file}\n".encode("utf-8") for file in files)]
    return b"".join(parts)


def manifests():
    """The stored texts."""
    return [(case["input"], []) for case in stored("manifests.jsonl")]


def folders(name="completions.jsonl"):
    """The stored texts with files."""
    return [(case["manifest"], case["files"]) for case in stored(name)]


def uses():
    """What the registry and the planner look at: all stored texts but those that this project refuses and the crate reads."""
    refused = {case["manifest"] for case in stored("otherwise.jsonl") if "refused" in case}
    kept = [pair for number, pair in enumerate(manifests(), 1) if number not in refused]
    return folders("usual.jsonl") + folders() + kept


def alike():
    """All stored texts of which this project says what the crate says, field by field."""
    otherwise = {case["manifest"] for case in stored("otherwise.jsonl")}
    kept = [pair for number, pair in enumerate(manifests(), 1) if number not in otherwise]
    return folders("usual.jsonl") + folders() + kept


def built(room, dependency, names, cwd, settings=None, release=False, more=None):
    """Builds programs over a crate, which is the right side of a line of Cargo.toml, and over more crates by their names, in a
    folder where cargo finds what it needs: the run, and the folder of what it built."""
    lines = ["[package]", 'name = "programs"', 'version = "0.1.0"', 'edition = "2021"', "autobins = false", "", "[workspace]"]
    lines += ["", "[dependencies]", f"cargo-manifest = {dependency}", *(f"{name} = {of}" for name, of in (more or {}).items())]
    for name in names:
        lines += ["", "[[bin]]", f'name = "{name}"', f'path = "{PROGRAMS / name}.rs"']
    room.mkdir(exist_ok=True)
    (room / "Cargo.toml").write_text("\n".join(lines) + "\n", encoding="utf-8")
    target = Path((settings or {}).get("CARGO_TARGET_DIR", room / "target"))
    words = ["cargo", "build", "--offline", "--quiet", "--manifest-path", room / "Cargo.toml"]
    settings = {**os.environ, **(settings or {}), "CARGO_TARGET_DIR": str(target)}
    run = subprocess.run(words + ["--release"] * release, cwd=cwd, env=settings, capture_output=True, text=True)
    return run, target / ("release" if release else "debug")


def over_ours(archive):
    """The line of our crate, and what is set for its build over an archive, which stands in a folder of its own."""
    dependency = f'{{ package = "cargo-manifest-proved", path = "{BINDINGS / "rust"}" }}'
    return dependency, {"MANIFEST_FFI": str(archive.parent)}


def over_the_crate(crate):
    """The line of the Rust crate in a folder."""
    return f'{{ path = "{crate}" }}'


def told_of(program, words, data):
    """What a program prints of these bytes."""
    run = subprocess.run([program, *words], input=data, capture_output=True, timeout=600)
    if run.returncode != 0:
        raise ValueError(f"{program} {words}: status {run.returncode}\n{run.stderr.decode('utf-8', 'replace')}")
    return run.stdout


def answer(program, words, pairs=()):
    """What a program prints of cases."""
    return told_of(program, words, cases(pairs)).decode("utf-8")


def on_disk(program):
    """What `debug` says of the stored folders where they are made on the disk."""
    with tempfile.TemporaryDirectory() as folder:
        paths = []
        for number, case in enumerate(stored("completions.jsonl")):
            place = Path(folder) / str(number)
            place.mkdir()
            paths.append((str(make(place, case)), []))
        return answer(program, ["paths"], paths)


def in_folder(program):
    """What a program prints that may make files in a folder."""
    with tempfile.TemporaryDirectory() as folder:
        return answer(program, [str(Path(folder) / "a")])


def answers(built_in):
    """What the programs of BOTH answer, each with the name of the stored file and a function that runs one."""
    debug = built_in / "debug"
    return {
        "debug-manifests.txt": lambda: answer(debug, ["texts"], manifests()),
        "debug-completions.txt": lambda: answer(debug, ["lists"], folders()),
        "debug-usual.txt": lambda: answer(debug, ["lists"], folders("usual.jsonl")),
        "debug-queries.txt": lambda: answer(debug, ["queries"], manifests()),
        "debug-defaults.txt": lambda: answer(debug, ["defaults"]),
        "api.txt": lambda: in_folder(built_in / "api"),
        "values.txt": lambda: answer(built_in / "values", [SEED, str(VALUES)]),
        "registry.txt": lambda: answer(built_in / "registry", [], uses()),
        "planner.txt": lambda: answer(built_in / "planner", [], uses()),
    }


def stored_text(name):
    """A stored answer."""
    return (ANSWERS / name).read_text(encoding="utf-8")


def have_cargo(what):
    """Whether cargo is there; where it is not, this is not run."""
    if shutil.which("cargo"):
        return True
    not_run(what, "there is no command cargo")
    return False


def every():
    """All stored texts."""
    return folders("usual.jsonl") + manifests() + folders()


def without_field(line):
    """A line without the field that the original does not have, and the values that it had."""
    values = []

    def shorter(found):
        if found[1] is None:
            return found[0]
        values.append({None: None, "true": True, "false": False}[found[4]])
        return found[1]

    return INHERITED.sub(shorter, line), values


def deepest(value="1", start=("package", "metadata")):
    """Documents with 128 arrays and tables in one another in the whole table, around a value below a first few keys, which is as
    deep as is read: by a header and a dotted key, by inline tables, whose keys have one part or two, and by inline tables and
    arrays in turns."""
    def document(header, key, opening, closing):
        keys = [*start] + ["a"] * (2 + header + key - len(start))
        path, rest = ".".join(keys[: 2 + header]), ".".join(keys[2 + header :])
        return f'[package]\nname = "p"\n[{path}]\n{rest} = {opening}{value}{closing}\n'

    inline = "{a.a = " * 46 + "{a = " * 34
    both = "{a.a = [" * 34 + "{a.a = " * 12
    return [document(77, 50, "", ""), document(0, 1, inline, "}" * 80), document(0, 1, both, "}" * 12 + "]}" * 34)]


def densest():
    """Documents whose headers, dotted keys and brackets lead far deeper than is parsed, and documents that lead as deep as that:
    inline tables in one another, below a header and a key, of which each key has as many parts. Each stands alone, and before a
    fault that is found when all of it is there: a key that stands twice, or a header."""
    def document(parts, brackets):
        key = ".".join(["a"] * parts)
        return f"[{key}]\nb.{key[2:]} = " + f"{{{key} = " * brackets + "1" + "}" * brackets + "\n"

    far = [document(parts, min(384 // parts - 3, 80)) for parts in (6, 16, 32, 51, 64, 73, 80)]
    near = [document(parts, min(126 // parts - 2, 80)) for parts in (2, 3, 6, 16, 32, 42)]
    headers = "".join(f"[[{'.'.join(['a'] * part)}]]\n" for part in range(1, 81))
    far += [f"{headers}b{'.b' * 47} = 1\n"]
    near += [f"[{'.'.join(['a'] * 79)}]\na{'.a' * 49} = 1\n", f"{headers}b{'.b' * 32} = 1\n"]
    return [text + fault for text in far + near for fault in ("", "c = 1\nc = 1\n", "[b]\n[b]\n")]


def stack_fault(program, step, stack):
    """What is wrong where `stack` does a step, with the texts with which it takes most stack, in a thread with so much of it; or
    None."""
    found = deepest("0.5", ("profile", "dev", "build-override"))
    texts = {"call": deepest() + densest(), "find": found}.get(step) or deepest()
    given = cases([(text, []) for text in texts])
    run = subprocess.run([program, step, str(stack)], input=given, capture_output=True, timeout=600)
    if (run.returncode, run.stdout) == (0, f"{len(texts)}\n".encode()):
        return None
    return f"status {run.returncode}, {run.stdout}, {run.stderr.decode('utf-8', 'replace')}"


def asked(name, ask):
    """What a program prints; a program that does not run to its end has failed, and is reported."""
    try:
        return ask()
    except (ValueError, subprocess.TimeoutExpired) as fault:
        told(name, fault)
        return None


def lines_of(text):
    """The lines of what is printed: no other sign than a line feed ends one."""
    return text.split("\n")[:-1]


def count_lines(name, said, due, fault_of):
    """Counts each line that a program has printed and that is due; `fault_of` a line number, a line and what is due is what
    is wrong, or None. The first faults are reported."""
    said, due = lines_of(said), lines_of(due)
    told(f"{name}: how many lines", None if len(said) == len(due) else f"{len(said)} where {len(due)} are due")
    failed = 0
    for number, (line, wanted) in enumerate(zip(said, due), 1):
        fault = fault_of(number, line, wanted)
        failed += fault is not None
        if failed <= TOLD or fault is None:
            told(f"{name}: line {number}", fault)
        else:
            counts[1] += 1
    if failed > TOLD:
        print(f"{name}: and {failed - TOLD} lines more")


def first_difference(said, due):
    """Where two lines differ first, or None."""
    if said == due:
        return None
    at = next((at for at, (one, other) in enumerate(zip(said, due)) if one != other), min(len(said), len(due)))
    before = max(0, at - 100)
    return f"it says ..{said[before:at + 100]}.. where ..{due[before:at + 100]}.. is due"
