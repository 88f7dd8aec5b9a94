"""Manifests in which faults are planted, so that it is known which diagnostics have to be reported, and where.

A fault is lines of TOML for a table, in which a mark stands before each place where something has to be reported. They are put
right after the header of the table or, where no such header stands in the manifest, with the header at its end; a line whose
key stands in the table already takes its place. Then the marks are taken out, and what was to be reported at each is noted by
its line and column.
"""
import re
import tomllib
from random import Random

from .check_cases import Told
from .check_made import B, FILES, HEAD, RIGHT_KEYS, RIGHT_TABLES

MOST = 5
# characters that no manifest has, around the code and the level of a mark
OPEN, CLOSE = "\ue000", "\ue001"
MARK = re.compile(f"{OPEN}([a-z0-9-]+) ([a-z]+){CLOSE}")
WRITTEN = re.compile(r"«([a-z0-9-]+)( warning| note|)»")
KEY = re.compile(rf"(?:{OPEN}[^{CLOSE}]*{CLOSE})?([\w-]+) = ")
# the line of a header, with a mark before it where the fault is the table itself
HEADER = re.compile(rf"^(?:{OPEN}[^{CLOSE}]*{CLOSE})?\[", re.M)

# the faults: the table, and its lines, where # stands for the number of the fault. Those in the tables of KEYS_ONCE take the
# place of a key, and are planted once
FAULTS = {
    "": [
        "«unknown-key warning»zebra-# = 1", "«misspelled-key warning»dependancies = {}",
        "«configuration-key warning»paths = []",
    ],
    "package": [
        "«unknown-key warning»zebra-# = true", '«misspelled-key warning»licence = "MIT"',
        '«misspelled-key warning»autors = ["x"]', '«unknown-key warning»"key #" = 1', 'version = «invalid-version»"1.#"',
        'version = «invalid-version»"v1.0.#"', "version = «wrong-kind»#", 'version = «invalid-version»"1.0.0-01"',
        "description = «wrong-kind»#", 'authors = «wrong-kind»"me"', 'keywords = ["é", «wrong-kind»#]',
        'publish = «wrong-kind»"crates-io"', 'rust-version = «invalid-rust-version»"1.x"',
        'rust-version = «invalid-rust-version»"stable"', 'build = «missing-build-script»"nope-#.rs"', "readme = «wrong-kind»[]",
        'default-run = «unknown-default-run»"nope-#"', 'resolver = «unknown-word»"4"',
        "license = { workspace = «not-true»false }", 'documentation = "«direction-characters warning»\u202ex"',
    ],
    "package.metadata.planted": [
        "a-# = «float-in-metadata note»0.5", "b-# = [1, «float-in-metadata note»2.5]",
    ],
    "dependencies": [
        'd-# = «invalid-requirement»"1 2"', 'd-# = «invalid-requirement»"v#"', 'd-# = «invalid-requirement»""',
        "d-# = «no-source»{}", "d-# = «wrong-kind»true", '«invalid-dependency-name»"#d" = "1"',
        '«invalid-dependency-name»"d #" = "1"', 'd-# = { version = "1", «unknown-key warning»zebra = # }',
        'd-# = { version = "1", «misspelled-key warning»feature = [] }',
        'd-# = { version = "1", «revision-without-git»tag = "v#" }', 'd-# = { git = «invalid-url»"a/#" }',
        'd-# = { git = "https://example.com/#", branch = "b", «several-revisions»tag = "t" }',
        'd-# = { version = "1", features = ["é", «invalid-dependency-feature»"a/b"] }',
        'd-# = { version = "1", package = «invalid-dependency-name»"a b" }',
        'd-# = { version = "1", registry = «invalid-registry-name»"1r" }', 'd-# = «metadata-in-requirement warning»"1.0.#+x"',
        'd-# = { path = «missing-path-package»"nope-#" }',
        'd-# = { git = "https://example.com/#", «conflicting-sources»path = "b", package = "b" }',
    ],
    "dev-dependencies": [
        'v-# = { version = "1", optional = «optional-dev-dependency»true }', "v-# = { version = «wrong-kind»1 }",
    ],
    "features": [
        'f-# = [«unknown-feature»"nope-#"]', 'f-# = [«unknown-feature»"dep:nope"]', '«invalid-feature-name»"f #" = []',
        '«invalid-feature-name»"f/#" = []', "f-# = «wrong-kind»{}", "f-# = [«wrong-kind»#]",
        "«default-features-feature warning»default-features = []", 'f-# = [«feature-enables-itself»"f-#"]',
    ],
    "lib": [
        "«unknown-key warning»zebra-# = 1", "doctest = «wrong-kind»0", 'crate-type = «wrong-kind»"lib"',
        'name = «invalid-library-name»"my-lib"', 'name = «empty-target-name»" "', 'path = «wrong-target-path»"nope-#.rs"',
        'crate-type = «dylib-and-cdylib»["dylib", "cdylib"]',
    ],
    "profile.planted-#": [
        'inherits = «inherits-debug»"debug"', 'inherits = "dev"\nopt-level = «unknown-word»"3"',
        'inherits = "dev"\ndebug = «out-of-range»3', 'inherits = "dev"\n«unknown-key warning»zebra = #',
        'inherits = "dev"\n«ignored-spelling warning»opt_level = 1', 'inherits = "dev"\npanic = «unknown-word»"no"',
        'inherits = "dev"\nlto = «invalid-lto»"true"', 'inherits = "dev"\n«removed-dir-name»dir-name = "x"',
        'inherits = "dev"\ncodegen-units = «no-codegen-units»0',
    ],
    "lints.clippy": [
        'l# = «unknown-word»"error"', 'l# = { level = "warn", priority = «out-of-range»128 }',
        "l# = «missing-key»{ priority = 1 }", '«tool-in-lint-name»"clippy::l#" = "warn"',
        'l# = { level = "warn", «ignored-lint-key warning»zebra = 1 }',
    ],
}
# the faults that have a header of their own
TABLES = [
    "[«unknown-key warning»zebra-table-#]\nx = 1", "[«misspelled-key warning»dev-dependancies]",
    "[«configuration-key warning»net]\noffline = true", '[profile.«invalid-profile-name»"p #"]\ninherits = "dev"',
    '[profile.«reserved-profile-name»cargo-#]\ninherits = "dev"', "«missing-inherits»[profile.own-#]\nopt-level = 1",
    "[profile.«doc-profile warning»doc]", '[target.«invalid-platform»"cfg(unix".dependencies]',
    '[target.«invalid-platform»"a b #".dependencies]', '[target.«never-true-cfg warning»"cfg(test)".dependencies]',
    "«no-source»[dependencies.h-#]\noptional = true", '[lints.«unknown-lint-tool warning»miri]\nx = "warn"',
    '«missing-target-name»[[test]]\npath = "n.rs"', '«missing-target-file»[[test]]\nname = "u-#"',
    '[[bench]]\nname = "u-#"\npath = «wrong-target-path»"nope-#.rs"',
    '[[example]]\nname = «empty-target-name»""\npath = "e.rs"', '[[example]]\nname = «invalid-target-name»"u #"\npath = "i.rs"',
    '[profile.planted-#.package.«invalid-package-spec»"a b"]\nopt-level = 1\n[profile.planted-#]\ninherits = "dev"',
]
MORE_FILES = {**dict.fromkeys(("e.rs", "i.rs", "n.rs"), b"fn main() {}\n"), **B}
# what a manifest with faults has to have for a target (else other files would be found), and must not have at all
LATER_EDITION = re.compile(r'^edition = "20(?:18|21|24)"$', re.M)
OTHER_RULES = re.compile(r"workspace|rust-version|\r")


def marked(lines, number):
    """The lines of a fault, with its number and with marks."""
    return WRITTEN.sub(lambda found: f"{OPEN}{found[1]} {found[2].strip() or 'error'}{CLOSE}", lines).replace("#", str(number))


def keys_of(lines):
    return {found[1] for line in lines.split("\n") if (found := KEY.match(line))}


def with_lines(text, table, lines):
    """The text with these lines in a table; None where a key of them stands there in more than one line."""
    if table == "":
        return f"{lines}\n{text}" if not keys_of(lines) & set(tomllib.loads(MARK.sub("", text))) else None
    found = re.search(rf"^\[{re.escape(table)}\]\n", text, re.M)
    if found is None:
        return f"{text}\n[{table}]\n{lines}\n"
    end = HEADER.search(text[found.end():] + "\n[").start() + found.end()
    kept = []
    for line in text[found.end():end].split("\n"):
        key = KEY.match(line)
        if key is None or key[1] not in keys_of(lines):
            kept.append(line)
        elif MARK.search(line):
            return None
    return text[:found.end()] + lines + "\n" + "\n".join(kept) + text[end:]


def drawn(random):
    """A fault: its table, None for one that has a header of its own, and its lines."""
    table = random.choice([*FAULTS, *FAULTS, None, None, None, None])
    return table, random.choice(TABLES if table is None else FAULTS[table])


def with_fault(text, table, lines, number):
    """The text with one more fault, or None where this one cannot be planted."""
    if table is not None:
        return with_lines(text, table.replace("#", str(number)), marked(lines, number))
    if "[[" in lines and not LATER_EDITION.search(text):
        return None
    return f"{text}\n{marked(lines, number)}\n"


def is_document(text):
    try:
        tomllib.loads(MARK.sub("", text))
        return True
    except ValueError:
        return False


def places(text):
    """The text without its marks, and what has to be reported at them."""
    expected = []
    while found := MARK.search(text):
        before = text[:found.start()]
        line, column = before.count("\n") + 1, len(before) - before.rfind("\n")
        expected.append(Told("Cargo.toml", line, column, *found.groups()))
        text = before + text[found.end():]
    return text, sorted(expected)


def clean_manifests(count, seed, stored):
    """The files of manifests in which faults may be planted, by their names: made ones, and those stored ones whose package and
    tables are written by headers."""
    random = Random(f"clean {seed}")
    made = {}
    for number in range(min(count, 100)):
        head = HEAD.format(edition=random.choice(["2018", "2021", "2024"]))
        text = head + "".join(random.sample(RIGHT_KEYS, 3)) + "\n" + "\n".join(random.sample(RIGHT_TABLES, random.randrange(7)))
        made[f"made-{number}"] = {"Cargo.toml": text.encode("utf-8"), **FILES, **MORE_FILES}
    for name, files in stored.items():
        text = files["Cargo.toml"].decode("utf-8", "replace")
        if re.search(r"^\[package\]\n", text, re.M) and not OTHER_RULES.search(text):
            made[name] = {**files, **MORE_FILES}
    return made


def kinds():
    """A plain manifest for each kind of fault: its files, and what has to be reported, by the number of the fault."""
    each = [(table, lines) for table, all_lines in FAULTS.items() for lines in all_lines] + [(None, lines) for lines in TABLES]
    made = {}
    for number, (table, lines) in enumerate(each):
        text, expected = places(with_fault(HEAD.format(edition="2021"), table, lines, 1))
        made[str(number)] = ({"Cargo.toml": text.encode("utf-8"), **FILES, **MORE_FILES}, expected)
    return made


def planted(bases, count, seed):
    """The files of manifests with up to five faults, by their names, and what has to be reported of each."""
    made, names = {}, sorted(bases)
    for number in range(count):
        random = Random(f"{seed} {number}")
        files = bases[random.choice(names)]
        text, done = files["Cargo.toml"].decode("utf-8"), set()
        for each in range(random.randrange(1, MOST + 1)):
            fault = drawn(random)
            more = None if fault in done else with_fault(text, *fault, each + 1)
            # (a fault whose table is written otherwise, or whose key is there already, is left out)
            if more is not None and is_document(more):
                text = more
                done.add(fault)
        text, expected = places(text)
        # (a library that is planted has its file)
        library = {} if "[lib]" not in text else {"src/lib.rs": b""}
        made[str(number)] = ({**library, **files, "Cargo.toml": text.encode("utf-8")}, expected)
    return made
