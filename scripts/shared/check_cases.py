"""The cases of manifest_check: the files tests/checks/*.cases, whose lines tests/checks/README.md explains."""
import re
from typing import NamedTuple

from .repository import TOP

FOLDER = TOP / "tests" / "checks"
MOMENTS = ("read", "build", "warn", "pack", "host", "none")
# what a line of the text of a diagnostic begins with
TEXT = "    "
DIAGNOSTIC = re.compile(
    r"(?:(?P<file>.+): )?(?P<code>[a-z0-9-]+) (?P<line>\d+):(?P<column>\d+|\*)(?: (?P<level>error|warning|note))?"
)


class Told(NamedTuple):
    """A diagnostic: the file, the line and the column from 1 on, the code, the level, and the lines of its text where they are
    asked for. A column of 0 is any one."""

    file: str
    line: int
    column: int
    code: str
    level: str
    text: tuple = ()

    def __str__(self):
        head = f"{self.file}:{self.line}:{self.column or '*'}: {self.level}[{self.code}]"
        return "\n".join((head, *(TEXT + line for line in self.text)))


class Case(NamedTuple):
    """One case: where it stands, what it is about, when Cargo says it, where and with which words Cargo is run, the options of
    the program, the files by their paths, and the diagnostics that are expected."""

    place: str
    name: str
    code: str
    moment: str
    folder: str
    words: tuple
    options: tuple
    files: dict
    expected: tuple


def unescaped(text):
    """The bytes of a text in ASCII that is written with escapes."""
    return text.encode("ascii").decode("unicode_escape").encode("latin-1")


def diagnostic_of(line, codes, manifest):
    """The diagnostic of a line of the part `expected`, of this manifest unless the line has another; the level is that of the
    table of codes unless the line has one."""
    found = DIAGNOSTIC.fullmatch(line)
    if found is None or found["code"] not in codes:
        raise ValueError(f"{line!r} is not the line of a diagnostic")
    column = 0 if found["column"] == "*" else int(found["column"])
    level = found["level"] or codes[found["code"]].level
    return Told(found["file"] or manifest, int(found["line"]), column, found["code"], level)


def expected_diagnostics(lines, codes, manifest):
    """The diagnostics of the part `expected`, in their order: of each its line, and below it the lines of its text."""
    expected = []
    for line in lines:
        if line.startswith(TEXT) and expected:
            expected[-1] = expected[-1]._replace(text=(*expected[-1].text, line.removeprefix(TEXT)))
        elif line:
            expected.append(diagnostic_of(line, codes, manifest))
    return expected


def parts_of(lines):
    """The parts of a case, each by the line that begins it, and its lines."""
    parts = [("", [])]
    for line in lines:
        if line.startswith("--- "):
            parts.append((line[4:], []))
        else:
            parts[-1][1].append(line)
    return parts


def file_of(head, lines):
    """The path of a file and its bytes."""
    name, comma, _ = head.partition(", escaped")
    text = "".join(f"{line}\n" for line in lines)
    return name, unescaped(text.removesuffix("\n").replace("\n", "\\n")) if comma else text.encode("utf-8")


def case_of(place, name, lines, codes):
    """The case of these lines."""
    (_, head), *parts = parts_of(lines)
    about = dict(line.split(": ", 1) for line in head if line)
    moment, *words = about.pop("cargo").split()
    files = dict(file_of(*part) for part in parts[:-1])
    manifest = next(name for name in files if name.endswith("Cargo.toml"))
    folder = manifest.rpartition("/")[0]
    if words[:1] == ["in"]:
        folder, words = words[1], words[2:]
    code, options = about.pop("code"), tuple(about.pop("options", "").split())
    if about or moment not in MOMENTS or code not in codes or not parts or parts[-1][0] != "expected":
        raise ValueError(f"{place}: {name}: the lines are not those of a case: {about or moment or code}")
    expected = tuple(sorted(expected_diagnostics(parts[-1][1], codes, manifest)))
    return Case(place, name, code, moment, folder, tuple(words), options, files, expected)


def cases_of(file, codes):
    """The cases of a file."""
    blocks, name, first = [], None, 0
    for number, line in enumerate(file.read_text(encoding="utf-8").split("\n"), 1):
        if line.startswith("=== "):
            name, first = line[4:], number
            blocks.append((f"{file.name}:{first}", name, []))
        elif name is not None:
            blocks[-1][2].append(line)
    return [case_of(place, name, lines, codes) for place, name, lines in blocks]


def all_cases(codes):
    """All cases, in the order of the files."""
    return [case for file in sorted(FOLDER.glob("*.cases")) for case in cases_of(file, codes)]


def write_texts(file, codes, told_of):
    """Writes below each expected diagnostic of a file the lines of the text that it is reported with, if it is: `told_of` has
    what is reported of each case, by the place of the case."""
    written, told, is_expected, manifest = [], [], False, ""
    for number, line in enumerate(file.read_text(encoding="utf-8").split("\n"), 1):
        if line.startswith("=== "):
            told, is_expected, manifest = list(told_of[f"{file.name}:{number}"]), False, ""
        elif line.startswith("--- "):
            is_expected = line == "--- expected"
            manifest = manifest or (line[4:].partition(", ")[0] if "Cargo.toml" in line else "")
        elif is_expected and line.startswith(TEXT):
            continue
        written.append(line)
        if is_expected and line and line != "--- expected":
            wanted = diagnostic_of(line, codes, manifest)
            found = next((each for each in told if each._replace(text=(), column=wanted.column and each.column) == wanted), None)
            if found is not None:
                told.remove(found)
                written += [TEXT + each for each in found.text]
    file.write_text("\n".join(written), encoding="utf-8")
