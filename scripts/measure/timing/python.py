"""`scripts/measure/speed python`: how long the package of bindings/python takes to read the manifests of a folder, and to give
their canonical text, by turns with Python's tomllib, which gives the table of a text and checks nothing of what it means."""
import tempfile
import tomllib
from pathlib import Path

from shared.archive import python_package
from shared.commands import built_files

from .findings import figures
from .manifests import by_size, of_folder
from .programs import on_one_processor
from .tables import head, row


def measure(words):
    """Measures, and prints a row for each class of manifests."""
    package = python_package(built_files(words.built))
    steps = {"`table`": package.table, "`canonical`": package.canonical, "`tomllib`": lambda text: tomllib.loads(text.decode())}
    on_one_processor()
    head("Microseconds in Python, and over `tomllib`", "bytes", "manifests", *steps)
    with tempfile.TemporaryDirectory() as room:
        for name, files in by_size(of_folder(words.manifests, Path(room))):
            *ours, (alone, _) = figures([file.read_bytes() for file in files], steps.values(), words.turns)
            row(name, str(len(files)), *(f"{least:,.1f} ({least / alone:.2f})" for least, _ in ours), f"{alone:,.1f}")
