"""What toml_edit, by which others edit texts in TOML, makes of a text: tests/programs/edits.rs over it, where its sources are
installed, as by Debian's librust-toml-edit-dev."""
import shutil
import subprocess
from pathlib import Path

from .crates import cargo, folders, source, versions, write_package
from .programs import PROGRAMS, cases
from .tries import not_run, told

NAME = "toml_edit"
# (what the program calls is of these versions)
WANTED = '">=0.14, <0.15"'


def registry():
    """The folder of crates that has toml_edit; None where there is none."""
    return next((folder for folder in folders([]) if [0, 14] in [version[:2] for version in versions(folder, NAME)]), None)


class NotBuilt(Exception):
    """Why a program over toml_edit is not built."""


def lacking():
    """What is not there to build over toml_edit, or None."""
    if registry() is None:
        return f"there is no {NAME} 0.14 in {' or '.join(map(str, folders([])))}"
    return None if shutil.which("cargo") else "there is no command cargo"


def over(room, program):
    """A program over toml_edit, built in a folder."""
    place = Path(room) / "over"
    write_package(place, {NAME: WANTED}, [("bin", "edits", program)])
    run = cargo(["build", "--release", "--quiet", *source(registry())], place)
    if run.returncode != 0:
        raise NotBuilt(run.stderr)
    return place / "target" / "release" / "edits"


def built(room, what):
    """The program over toml_edit, built in a folder; None where it cannot be built here, which is said."""
    if why := lacking():
        return not_run(what, why)
    try:
        program, fault = over(room, PROGRAMS / "edits.rs"), None
    except NotBuilt as not_built:
        program, fault = None, not_built
    told("tests/programs/edits.rs is built", fault)
    return program


def written(mark, text):
    return mark + text.encode("utf-8").hex()


def lines(edit):
    """The lines by which the program takes an edit, or None for none."""
    if edit is None:
        return [written("e", "keep")]
    steps = [f"i{step}" if isinstance(step, int) else written("k", step) for step in edit.path]
    return [written("e", edit.kind), written("v", edit.text), *steps]


def edited(program, edits):
    """The text that toml_edit makes of each text and edit, or without an edit; None where it makes none."""
    data = cases((text, lines(edit)) for text, edit in edits)
    run = subprocess.run([program], input=data, stdout=subprocess.PIPE, timeout=600, check=True)
    left = run.stdout
    while left:
        length, _, left = left.partition(b"\n")
        if length == b"none":
            yield None
        else:
            yield left[: int(length)].decode("utf-8")
            left = left[int(length) :]
