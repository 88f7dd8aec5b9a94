"""Cargo manifests, read, completed, resolved and written by a library that is proved.

>>> import cargo_manifest
>>> cargo_manifest.table("package = { name = 'a', autobins = false }")
{'package': {'autobins': False, 'name': 'a'}}

Nothing is kept between calls, so each may be made from any thread at any time. Other threads of Python run on
meanwhile.

256 KiB of stack are enough for each call on all inputs that were tried: what nests too deep is refused. Each takes a keyword
`most`, how many bytes it may give.
"""
from ._calls import canonical, completed, completed_table, resolved, resolved_completed
from ._calls import resolved_completed_table, resolved_table, table
from ._cause import Cause
from ._diagnostics import Diagnostic, Label, Member, Suggestion, diagnostics, fixed
from ._edits import Edit, Replacement, edited, replacements
from ._error import ManifestError
from ._faults import Fault, faults, ignored, unused_keys
from ._places import Span
from ._positions import Position, positions
from ._toml import toml_of
from ._unresolved import UnfoundTarget, Unresolved, refusals, unfound_targets
from ._unused import CargoKey, UnusedKey

__version__ = "0.2.0"

__all__ = [
    "CargoKey",
    "Cause",
    "Diagnostic",
    "Edit",
    "Fault",
    "Label",
    "ManifestError",
    "Member",
    "Position",
    "Replacement",
    "Span",
    "Suggestion",
    "UnfoundTarget",
    "Unresolved",
    "UnusedKey",
    "__version__",
    "canonical",
    "completed",
    "completed_table",
    "diagnostics",
    "edited",
    "faults",
    "fixed",
    "ignored",
    "positions",
    "refusals",
    "replacements",
    "resolved",
    "resolved_completed",
    "resolved_completed_table",
    "resolved_table",
    "table",
    "toml_of",
    "unfound_targets",
    "unused_keys",
]
