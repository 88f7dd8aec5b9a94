"""Runs of the program manifest_check over folders, and what it reports in them."""
import json
import os
import re
import subprocess
from pathlib import Path

from .check_cases import Told
from .repository import TOP, X86

LINE = re.compile(
    r"(?P<file>.+?):(?P<line>\d+):(?P<column>\d+): (?P<level>error|warning|note)\[(?P<code>[a-z0-9-]+)\]: (?P<text>.*)"
)
SECONDS = 600
NAME = "manifest_check"


class Broken(Exception):
    """A run that ends otherwise than it may, or prints what is not a diagnostic."""


def program_of(named):
    """The program that is named, or else the one of prebuilt/ or out/; None where there is none."""
    places = [Path(name) for name in named] or [TOP / folder / X86 / NAME for folder in ("prebuilt", "out")]
    return next((place.resolve() for place in places if place.is_file()), None)


def told_by_line(line, folder):
    """The diagnostic of a line, with its file as a path in a folder."""
    found = LINE.fullmatch(line)
    if found is None:
        raise Broken(f"{line!r} is not the line of a diagnostic")
    file = os.path.relpath(found["file"], folder)
    return Told(file, int(found["line"]), int(found["column"]), found["code"], found["level"])


def printable(text):
    """A text in which characters that are not printed are written as escapes."""
    return "".join(each if each.isprintable() else json.dumps(each)[1:-1] for each in text)


def place_of(span, folder):
    """The place of a span of a diagnostic in JSON, with its file as a path in a folder."""
    return f"{os.path.relpath(span['file_name'], folder)} {span['line_start']}:{span['column_start']}"


def text_of(diagnostic, folder):
    """The lines of the text of a diagnostic in JSON: its message, its labels, and its notes with the texts that they suggest."""
    lines = [diagnostic["message"]]
    for span in diagnostic["spans"]:
        if span["label"] is not None or not span["is_primary"]:
            lines.append(f"{place_of(span, folder)}: {span['label'] or ''}")
    for note in diagnostic["children"]:
        lines.append(f"{note['level']}: {note['message']}")
        for span in note["spans"]:
            how = "certainly" if span["suggestion_applicability"] == "MachineApplicable" else "perhaps"
            end = f"{span['line_end']}:{span['column_end']}"
            lines.append(f"{place_of(span, folder)} to {end}, {how}: {json.dumps(span['suggested_replacement'], ensure_ascii=False)}")
    return tuple(printable(line.replace(f"{folder}/", "")) for line in lines)


def told_by_json(line, folder):
    """The diagnostic of a line of JSON, with its text."""
    read = json.loads(line)
    primary = next((span for span in read["spans"] if span["is_primary"]), None)
    if primary is None:
        raise Broken(f"{line!r} has no primary place")
    file = os.path.relpath(primary["file_name"], folder)
    place = file, primary["line_start"], primary["column_start"]
    return Told(*place, read["code"]["code"], read["level"], text_of(read, folder))


def told_in(program, folder, options=(), form="short"):
    """What the program reports of each Cargo.toml below a folder: a list of diagnostics by their files, with their texts in the
    format `json`, without them in the format `short`."""
    words = [os.fspath(program), "--format", form, *options, os.fspath(folder)]
    try:
        done = subprocess.run(words, capture_output=True, timeout=SECONDS)
    except subprocess.TimeoutExpired:
        raise Broken(f"{' '.join(words)} does not end") from None
    told_by = told_by_json if form == "json" else told_by_line
    told = [told_by(line, folder) for line in done.stdout.decode("utf-8").split("\n") if line]
    due = int(any(each.level == "error" for each in told))
    if done.returncode != due:
        raise Broken(f"{' '.join(words)} has the status {done.returncode}, where {due} is due: {done.stderr[-500:]!r}")
    by_file = {}
    for each in told:
        by_file.setdefault(each.file, []).append(each)
    return by_file


def within(name, line):
    """A line of a text, with paths as they are in the folder of this name."""
    return line.removeprefix(f"{name}/").replace(f"`{name}/", "`")


def told_of_each(program, folder, names, options=(), form="short"):
    """What the program reports in each of these folders of a folder, as by folder and file: by one run over all of them or,
    where that is broken, by one run for each."""
    try:
        by_file = told_in(program, folder, options, form)
    except Broken:
        return {name: told_alone(program, Path(folder) / name, options, form) for name in names}
    told = {name: [] for name in names}
    for file, found in by_file.items():
        name, _, rest = file.partition("/")
        told[name] += [each._replace(file=rest, text=tuple(within(name, line) for line in each.text)) for each in found]
    return told


def told_alone(program, folder, options, form="short"):
    """What the program reports in one folder, or why that is no answer."""
    try:
        return [each for found in told_in(program, folder, options, form).values() for each in found]
    except Broken as fault:
        return fault


def differs(told, expected):
    """How what is reported differs from what is expected, or None. A column of 0 is any."""
    if isinstance(told, Broken):
        return str(told)
    free = {each[:2] + each[3:] for each in expected if each.column == 0}
    found = sorted(each._replace(column=0) if each[:2] + each[3:] in free else each for each in told)
    wanted = sorted(expected)
    if found == wanted:
        return None
    missed, added = list(wanted), []
    for each in found:
        if each in missed:
            missed.remove(each)
        else:
            added.append(each)
    parts = [("is not reported", missed), ("is reported, and not expected", added)]
    return "; ".join(f"{', '.join(map(str, each))} {what}" for what, each in parts if each)
