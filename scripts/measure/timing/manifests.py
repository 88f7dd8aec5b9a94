"""The manifests that are measured: those that are made are the same text each time, and others are in a folder."""
from math import inf
from pathlib import Path

from shared.runs import make, stored

# the sizes that are timed, each with the word of its manifest; and the word of the one whose memory is looked at
SIZES = {"small": "small", "typical": "typical", "large": "5000"}
LARGE = "200700"
# the classes of the manifests of a folder, each with how many bytes they are below
CLASSES = {"below 300": 300, "300 to 600": 600, "600 to 1,200": 1_200, "1,200 to 2,500": 2_500, "2,500 and more": inf}
SMALL = '[package]\nname = "foo"\nversion = "1.0.0"\n'
# a dependency, by turns: a version, a table with a version, one with a path, and one that is inherited from the workspace
FORMS = (
    'crate-{0:05} = "1.{0}"\n',
    'crate-{0:05} = {{ version = "1.{0}", features = ["std"] }}\n',
    'crate-{0:05} = {{ path = "../{0}", default-features = false }}\n',
    'crate-{0:05} = {{ workspace = true, optional = true }}\n',
)
BEGINNING = """\
[package]
name = "storehouse"
version = "2.14.3"
edition = "2021"
rust-version = "1.74"
authors = ["The People of the Storehouse <storehouse@example.org>"]
description = "Keeps goods in order: what came in, where it lies, and what goes out."
documentation = "https://docs.example.org/storehouse"
homepage = "https://storehouse.example.org"
repository = "https://example.org/storehouse/storehouse"
readme = "README.md"
license = "MIT OR Apache-2.0"
keywords = ["stock", "goods", "order", "ledger", "shelf"]
categories = ["command-line-utilities", "database"]
exclude = ["/pictures", "/tests/large", "*.orig"]
build = "build.rs"
default-run = "storehouse"

[package.metadata.docs.rs]
all-features = true
rustdoc-args = ["--cfg", "docsrs"]
targets = ["x86_64-unknown-linux-gnu", "aarch64-apple-darwin"]

[badges]
maintenance = { status = "actively-developed" }

[lib]
name = "storehouse"
path = "src/lib.rs"
crate-type = ["lib", "cdylib"]

[lints.rust]
unsafe_code = "forbid"
missing_docs = "warn"
unused = { level = "deny", priority = -1 }

[lints.clippy]
pedantic = { level = "warn", priority = -1 }
module_name_repetitions = "allow"

[features]
default = ["ledger", "shelves"]
ledger = []
shelves = ["component-05"]
export = ["ledger", "component-13"]
network = ["component-21", "component-01/std"]
full = ["export", "network", "shelves"]
unstable = []
# Each of these is tried by itself.
import-csv = ["component-05"]
import-json = ["component-21"]
import-all = ["import-csv", "import-json"]
"""
# the declared targets of each kind: their folder, their names, and what the last one has in addition
TARGETS = {
    "bin": ("src/bin", "storehouse storehouse-import storehouse-export", 'required-features = ["export"]\n'),
    "example": ("examples", "first-goods one-shelf whole-year", 'required-features = ["full"]\n'),
    "test": ("tests", "ledger shelves round-trip", ""),
    "bench": ("benches", "import search", "harness = false\n"),
}
NOTE = "\n# What is needed always comes first, and what a feature asks for is optional."
# the tables of dependencies, each with the number after its last one
TABLES = {
    "dependencies": 26,
    "dev-dependencies": 33,
    "build-dependencies": 36,
    "target.'cfg(unix)'.dependencies": 38,
    "target.'cfg(windows)'.dependencies": 40,
}
# what a dependency is, and what those are that have more than a version
VERSION = '"1.{0}"'
DETAILED = {
    '{{ version = "0.{0}.2", features = ["derive", "rc", "std"] }}': (1, 9, 17, 25, 33),
    '{{ version = "2.{0}", default-features = false, features = ["alloc", "serde"] }}': (3, 11, 19, 27, 35),
    '{{ version = "1.0.{0}", optional = true }}': (5, 13, 21),
    '{{ path = "../components/component-{0:02}", version = "0.3" }}': (7, 15, 23),
    '{{ git = "https://example.org/component-{0:02}", branch = "main" }}': (29, 31),
}
END = """
[profile.dev]
opt-level = 1
debug = "limited"

[profile.release]
opt-level = 3
lto = "thin"
codegen-units = 1
panic = "abort"
strip = "symbols"

[profile.bench]
debug = true
inherits = "release"

# What is handed out is as small as can be.
[profile.shipped]
inherits = "release"
lto = "fat"
opt-level = "s"
overflow-checks = true
incremental = false

[profile.dev.package."*"]
opt-level = 2
"""


def typical():
    """A package with 40 dependencies, features, targets and profiles, some 4.7 kB."""
    parts, number = [BEGINNING], 0
    for kind, (folder, names, more) in TARGETS.items():
        parts += [f'\n[[{kind}]]\nname = "{name}"\npath = "{folder}/{name}.rs"\n' for name in names.split()] + [more]
    parts.append(NOTE)
    form_of = {number: form for form, numbers in DETAILED.items() for number in numbers}
    for table, end in TABLES.items():
        parts.append(f"\n[{table}]\n")
        parts += [f"component-{i:02} = {form_of.get(i, VERSION).format(i)}\n" for i in range(number, end)]
        number = end
    return "".join([*parts, END])


def many(count):
    """A package with this many dependencies."""
    head = '[package]\nname = "many"\nversion = "1.0.0"\nedition = "2021"\n\n[dependencies]\n'
    return head + "".join(FORMS[i % 4].format(i) for i in range(count))


def manifest(word):
    """The bytes of the manifest of a word: `small`, with a name and a version, `typical`, or a number of dependencies."""
    return {"small": lambda: SMALL, "typical": typical}.get(word, lambda: many(int(word)))().encode()


def of_folder(texts, room):
    """The manifests of a folder, or the usual ones of the stored: each in a folder of its own in `room`, with its files."""
    files = ["Cargo.toml", "src/lib.rs", "src/main.rs"]
    if texts == "usual":
        cases = stored("usual.jsonl")
    else:
        found = sorted(Path(texts).glob("*.toml"))
        cases = [{"manifest": file.read_text(encoding="utf-8"), "files": files} for file in found]
    return [make(room / f"{number:05}", case) for number, case in enumerate(cases, 1)]


def by_size(files):
    """The files of each class that has any, and all of them."""
    least = 0
    for name, most in CLASSES.items():
        of = [file for file in files if least <= file.stat().st_size < most]
        least = most
        if of:
            yield name, of
    yield "all", files
