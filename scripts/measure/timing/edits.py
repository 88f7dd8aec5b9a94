"""`scripts/measure/speed edits`: how long the library takes to set values of a text, over how long it takes to read the text,
by turns with toml_edit, which parses the text, sets the values and prints it: one value of manifests of three sizes, and a
thousand values of the largest. Both have to make the same text."""
import shutil
import tempfile
from pathlib import Path

from shared import toml_edit
from shared.commands import built_files
from shared.repository import SHARED, X86

from .manifests import SIZES, manifest
from .programs import HERE, on_one_processor, stop, times
from .tables import NAMES, head, over, row, shown

# the value of each manifest that is set
VALUES = {"small": "package.version", "typical": "package.version", "large": "dependencies.crate-02501.version"}
MANY = [f"dependencies.crate-{number:05}.version" for number in range(1, 4000, 4)]


def program(room):
    """The program that sets values by both."""
    (room / "sources").mkdir()
    for name in ("edits.rs", "driver.rs"):
        shutil.copy(HERE / name, room / "sources")
    if why := toml_edit.lacking():
        stop(why)
    try:
        return toml_edit.over(room, room / "sources" / "edits.rs")
    except toml_edit.NotBuilt as fault:
        return stop(fault)


def measure(words):
    """Measures, and prints a row for each manifest."""
    library = built_files(words.built) / X86 / SHARED
    with tempfile.TemporaryDirectory() as folder:
        room = Path(folder)
        speed = program(room)
        on_one_processor()
        head("Microseconds", "manifest", "values set", "reading alone", "`manifest_edited`", "over reading", "`toml_edit`",
             "`manifest_edited` / `toml_edit`")
        for size, paths in [*((size, [path]) for size, path in VALUES.items()), ("large", MANY)]:
            file = room / f"{size}.toml"
            file.write_bytes(manifest(SIZES[size]))
            took = times(speed, library, file, words.turns, *paths)
            reading, ours, theirs = (took[step][0] for step in ("reading", "ours", "toml_edit"))
            row(NAMES[size], f"{len(paths):,}", *(shown(figure, 1000, 1) for figure in (reading, ours)),
                shown(over(ours, reading)), shown(theirs, 1000, 1), shown(over(ours, theirs)))
