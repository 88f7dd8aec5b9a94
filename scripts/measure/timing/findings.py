"""`scripts/measure/speed findings`: how long the library takes to find all that is in a manifest, over how long it takes to read
it. Over manifests without a fault, and over 5,000 and 50,000 dependencies that are texts, that are numbers, and that are numbers
below a key of 50,000 bytes, and as many keys that nothing reads, it asks by turns for the table, which reads the manifest and
stops at the first fault, and for what `manifest_findings` finds, each without room for its answer."""
import statistics
import time

from shared.archive import python_package
from shared.commands import built_files

from .manifests import SIZES, manifest
from .tables import head, over, row, shown

PACKAGE = "[package]\nname = 'many'\n"
NAMES = {"small": "41 bytes", "typical": "typical", "large": "5,000 dependencies of four forms"}
# each of these takes part in a turn for this many seconds
LEAST = 0.02
NO_LIMIT = 2**62


def entries(header, count, value):
    """A package with this many entries of one value under a header, or in the package where there is none."""
    return (PACKAGE + header + "".join(f"d{i:05} = {value}\n" for i in range(count))).encode()


def inputs():
    """The manifests, each with its name."""
    for size, name in NAMES.items():
        yield name, manifest(SIZES[size])
    for count in 5_000, 50_000:
        yield f"{count:,} dependencies", entries("[dependencies]\n", count, "'1'")
        yield f"{count:,} faults", entries("[dependencies]\n", count, "1")
        yield f"{count:,} keys that nothing reads", entries("", count, "1")
        yield f"{count:,} faults below a long key", entries(f"[target.{'k' * 50_000}.dependencies]\n", count, "1")


def time_of(call, texts, times):
    """The mean time of this many calls on each text, in microseconds."""
    start = time.perf_counter()
    for _ in range(times):
        for text in texts:
            call(text)
    return (time.perf_counter() - start) / times / len(texts) * 1e6


def figures(texts, calls, turns):
    """Of each call the least time and the middle one, taken by turns, on one of these texts in the mean."""
    often = [max(1, int(LEAST * 1e6 / time_of(call, texts, 1) / len(texts))) for call in calls]
    taken = [[time_of(call, texts, times) for call, times in zip(calls, often)] for _ in range(turns)]
    return [(min(times), statistics.median(times)) for times in zip(*taken)]


def measure(words):
    """Measures, and prints a row for each manifest."""
    library = python_package(built_files(words.built), "cargo_manifest._library")

    def table(text):
        library.manifest_run(library.Request(bytes=(text, len(text)), most=NO_LIMIT, output=1), None, 0)

    def findings(text):
        library.manifest_findings(text, len(text), NO_LIMIT, None, 0)

    head("Microseconds", "manifest", "`manifest_table`", "`manifest_findings`", "ratio")
    for name, text in inputs():
        reading, finding = figures([text], (table, findings), words.turns)
        row(name, shown(reading, digits=1), shown(finding, digits=1), shown(over(finding, reading)))
