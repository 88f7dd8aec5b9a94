"""The numbers that a call of the library reports, as scripts/keys reads them in the definitions of manifest_answers, each with its
comment; and what is made of them. Each function that makes something returns lines without their indent."""
import itertools
import re
import textwrap
from dataclasses import dataclass

from .made import IN_C, IN_PAGE, IN_PYTHON, MARK, region, table

SPECS = "crates/manifest_answers/specs"
TEXTS = "crates/manifest_schema/specs/PathTexts.antt"
# the comment of a number begins with its name
ABOUT = re.compile(r" *-- ([A-Z][A-Z0-9_]*): (.*)")
# a status, whether the root has one too, and what more of it is a number; or the number of a cause, or of the fault of a folder
NUMBER = re.compile(
    r"^(?P<of>cause|kind)_number (?P<word>\w+) = (?P<number>\d+)$"
    r"|(?:IsReport t \(?|t\.status ≡ |^refusal_status .* = )(?P<root>at_root is_root )?(?P<status>\d+)\)?(?: \((?P<cause>cause|kind)_number)?"
)
OF_ROOT = re.compile(r"^at_root is_root status = if is_root then status \+ (\d+) else status$", re.M)
# the enums of the header that have what more of a status is a number
ENUMS = {"cause": "manifest_cause", "kind": "manifest_fault"}


@dataclass
class Number:
    """A number: its name, why it is reported, what the text then is, and by which numbers more is said."""

    number: int
    name: str
    why: str
    text: str = ""
    cause: str | None = None
    is_of_root: bool = False  # (a refusal of the root is reported by another number)
    word: str = ""  # (of a cause: its name in the definitions)
    said: str = ""  # (of a cause: its text)

    @property
    def variant(self):
        """The name as that of a variant."""
        return self.name.title().replace("_", "")

    @property
    def sentence(self):
        return f"{self.why[0].upper()}{self.why[1:]}."


@dataclass
class Numbers:
    """All of them, each in ascending order; and what is added for the root."""

    statuses: list
    causes: list
    faults: list
    of_root: int


def number_of(found, name, about):
    """The number that is found in a line, with its name and the lines of its comment."""
    if name is None:
        raise ValueError(f"no comment says what is reported by {found[0]}")
    why, _, text = " ".join(about).partition("; the text is ")
    if found["of"]:
        return Number(int(found["number"]), name, why, word=found["word"])
    return Number(int(found["status"]), name, why, text, found["cause"], bool(found["root"]))


def numbers_of(text):
    """Each number of some definitions, and what it is of."""
    name, about, goes_on = None, [], False
    for line in text.split("\n"):
        if begins := ABOUT.fullmatch(line):
            name, about, goes_on = begins[1], [begins[2]], True
        elif goes_on and line.lstrip().startswith("-- "):
            about.append(line.lstrip()[3:])
        else:
            goes_on = False
            if found := NUMBER.search(line):
                yield found["of"], number_of(found, name, about)
                name = None


def numbers(top):
    """The numbers of the definitions."""
    text = "".join((top / SPECS / name).read_text(encoding="utf-8") for name in ("Answered.antt", "Report.antt"))
    of = {None: [], "cause": [], "kind": []}
    for what, number in numbers_of(text):
        of[what].append(number)
    said = dict(re.findall(r'^cause_text (\w+) = codes "(.*)"$', (top / TEXTS).read_text(encoding="utf-8"), re.M))
    for cause in of["cause"]:
        cause.said = said[cause.word]
    statuses, causes, faults = (sorted(each, key=lambda number: number.number) for each in of.values())
    for one, next_one in (pair for each in (statuses, causes, faults) for pair in itertools.pairwise(each)):
        if one.number == next_one.number:
            raise ValueError(f"{one.name} and {next_one.name} are both {one.number}")
    return Numbers(statuses, causes, faults, int(OF_ROOT.search(text)[1]))


def of_root(all_of):
    """The statuses of the root."""
    return [Number(status.number + all_of.of_root, f"ROOT_{status.name}", "") for status in all_of.statuses if status.is_of_root]


def named(all_of):
    """All statuses, those of the root among them."""
    return sorted([*all_of.statuses, *of_root(all_of)], key=lambda status: status.number)


def listed(numbers):
    """Numbers, as a sentence has them."""
    *first, last = (str(each.number) for each in numbers)
    return f"{', '.join(first)} and {last}" if first else last


# THE PAGES
def causes_table(all_of):
    """The table of docs/SCHEMA.md."""
    return table(("cause", "text", ""), [(f"`{cause.word}`", f"`{cause.said}`", cause.why) for cause in all_of.causes])


def statuses_table(all_of):
    """The table of docs/LIBRARY.md."""
    more = {
        None: "",
        "cause": ", ".join(f"{cause.number} {cause.said}" for cause in all_of.causes),
        "kind": ", ".join(f"{fault.number} {fault.why}" for fault in all_of.faults),
    }
    rows = [(it.number, str(it.number), f"`{it.name}`", it.why, it.text, more[it.cause]) for it in all_of.statuses]
    both, roots = [status for status in all_of.statuses if status.is_of_root], of_root(all_of)
    rows.append((
        roots[0].number, ", ".join(str(root.number) for root in roots), "theirs after `ROOT_`",
        f"{listed(both)} of the root: the number plus {all_of.of_root}. `start` and `end` are places in the root",
        *(f"as of {listed(of_those)}" for of_those in ([it for it in both if it.text], [it for it in both if it.cause])),
    ))
    return table(("status", "name", "why", "the text", "`cause`"), [row[1:] for row in sorted(rows)])


# THE HEADER
def in_c(text):
    """A comment of an enum of the header."""
    return textwrap.wrap(f"/* {text} */", 121, subsequent_indent="   ", break_long_words=False, break_on_hyphens=False)


def c_statuses(all_of):
    """The statuses of the header."""
    both, roots = [status for status in all_of.statuses if status.is_of_root], of_root(all_of)
    lines = []
    for status in named(all_of):
        more = [f"`cause` is one of enum {ENUMS[status.cause]}"] if status.cause else []
        more += [f"the text is {status.text}"] if status.text else []
        if status.why:
            lines += in_c(": ".join([status.why, *([", and ".join(more)] if more else [])]))
        if status.number == roots[0].number:
            lines += in_c(f"{listed(both)} of the root: {all_of.of_root} more. `start` and `end` are places in the root")
        lines += c_constants([status])
    return ended(lines)


def c_constants(numbers):
    """The constants of an enum of the header."""
    return [f"MANIFEST_{each.name} = {each.number}," for each in numbers]


def ended(lines):
    """The lines of an enum, without the comma of the last one."""
    return [*lines[:-1], lines[-1].removesuffix(",")]


def c_causes(all_of):
    """The causes of the header."""
    lines = ended(c_constants(all_of.causes))
    width = max(map(len, lines))
    return [f"{line:{width}} /* {cause.why} */" for line, cause in zip(lines, all_of.causes)]


def c_faults(all_of):
    """The faults of folders of the header."""
    return ended(c_constants(all_of.faults))


# THE CODE, the Rust crate and the Python package
def code_causes(all_of):
    """The number of each cause, in the code."""
    return [f"Cause::{cause.variant} => {cause.number}," for cause in all_of.causes]


def constants(all_of, line, comment):
    """A constant for each number that has a name."""
    for said, numbers_so_named in (
        ("the statuses", [(each.name, each.number) for each in named(all_of)]),
        ("the faults of a folder, which are the causes of IO", [(each.name, each.number) for each in all_of.faults]),
        ("what is added to a status where it is of the root", [("OF_ROOT", all_of.of_root)]),
    ):
        yield f"{comment} {said}"
        yield from (line.format(name, number) for name, number in numbers_so_named)


def rust_causes(all_of):
    """The variants of the causes, in Rust."""
    return [line for cause in all_of.causes for line in (f"/// {cause.sentence}", f"{cause.variant},")]


def rust_causes_of_numbers(all_of):
    """The cause of each number, in Rust."""
    return [f"{cause.number} => Cause::{cause.variant}," for cause in all_of.causes]


def rust_causes_said(all_of):
    """The text of each cause, in Rust."""
    return [f'Cause::{cause.variant} => "{cause.said}",' for cause in all_of.causes]


def python_causes(all_of):
    """The causes, in Python."""
    return [line for cause in all_of.causes for line in (f'{cause.name} = "{cause.said}"', f'"""{cause.sentence}"""')]


def python_causes_of_numbers(all_of):
    """The cause of each number, in Python."""
    return [f"{cause.number}: Cause.{cause.name}," for cause in all_of.causes]


# WHERE IT STANDS
RUST = "bindings/rust/src/calls"
PYTHON = "bindings/python/cargo_manifest"
TABLE = rf"(^{re.escape(IN_PAGE)}\n\n)((?:\|.*\n)*)()"
ENUM = r"(^enum {} \{{\n{})((?:.*\n)*?)(\}};\n)"
CONSTANTS = r"(^{}\n)((?:(?://|#) .*\n|.*\w+(?:: u8)? = \d+;?\n)*)()"
MATCH = r"({}\(?match (?:number|self|cause) \{{\n)((?:.*\n)*?)({})"


def parts(top):
    """The parts of files that are made of the numbers, by their files."""
    all_of = numbers(top)
    return {
        "docs/LIBRARY.md": [region(TABLE, statuses_table(all_of))],
        "docs/SCHEMA.md": [region(TABLE, causes_table(all_of))],
        "bindings/c/cargo_manifest.h": [
            region(ENUM.format("manifest_status", ""), c_statuses(all_of), "    ", IN_C),
            region(ENUM.format("manifest_cause", ""), c_causes(all_of), "    ", IN_C),
            region(ENUM.format("manifest_fault", r" +MANIFEST_NO_FAULT = 0,\n"), c_faults(all_of), "    ", IN_C),
        ],
        "crates/manifest_answers/src/reporting.rt": [
            region(MATCH.format(r"fn cause_number\(.*\n.*\n\{\n    ", "    }\n"), code_causes(all_of), " " * 8, MARK),
        ],
        f"{RUST}/numbers.rs": [region(CONSTANTS.format(re.escape(MARK)), constants(all_of, "pub(super) const {}: u8 = {};", "//"))],
        f"{RUST}/refusal.rs": [
            region(r"(^pub enum Cause \{\n)((?:.*\n)*?)(\}\n)", rust_causes(all_of), "    ", MARK),
            region(MATCH.format("Some", " +_ => return None"), rust_causes_of_numbers(all_of), " " * 12, MARK),
            region(MATCH.format(r"for Cause \{\n.*\n +f\.write_str", r" +\}\)\n"), rust_causes_said(all_of), " " * 12, MARK),
        ],
        f"{PYTHON}/_numbers.py": [region(CONSTANTS.format(re.escape(IN_PYTHON)), constants(all_of, "{} = {}", "#"))],
        f"{PYTHON}/_cause.py": [
            region(r'(^    TOO_LONG = .*\n    """.*\n)((?:.*\n)*?)(    FOLDER_)', python_causes(all_of), "    ", IN_PYTHON),
        ],
        f"{PYTHON}/_refusal.py": [
            region(r"(^SCHEMA_CAUSES = \{\n)((?:.*\n)*?)(\}\n)", python_causes_of_numbers(all_of), "    ", IN_PYTHON),
        ],
    }
