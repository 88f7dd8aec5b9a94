"""What is expected at a key path of a manifest, by the rows of its tables."""
from __future__ import annotations

from typing import NamedTuple, Optional

from ._forms import FORMS, WORDS
from ._paths import KeyPath, Step

_OTHERS = "any other key"
_MANIFEST, _PACKAGE = "table Manifest", "table Package"
_DETAIL, _OF_WORKSPACE, _LINT = "Dependency in detail", "Dependency of the workspace", "Lint in detail"
_KEPT = "any value without a float"

# the kind of an entry, of the word for many of them
_SINGULAR = {"texts": "text", "dependencies": "dependency", "lints": "lint", "values without a float": _KEPT}

_WHAT = {
    "text": "a string",
    "boolean": "a boolean",
    "true": "`true`",
    "text or boolean": "a string or a boolean",
    "boolean or list of texts": "a boolean or an array of strings",
    "dependency": "a string or a table",
    _KEPT: "a value without a float",
}


class Expected(NamedTuple):
    """What is expected in the place of a value: in words, as `a string`; the texts that are allowed, where it is a choice; and
    the name of the table, where it is or may be one with rows."""

    what: str
    choices: tuple[str, ...] = ()
    form: Optional[str] = None


def listed(texts: tuple[str, ...]) -> str:
    """Texts in one line, between backquotes."""
    return ", ".join(f"`{text}`" for text in texts)


def _of_choice(name: str) -> Expected:
    words = WORDS[name]
    what = f"one of the strings {listed(words)}"
    return Expected(f"a boolean, or {what}" if name == "strip" else what, words)


def _expected(kind: str) -> Optional[Expected]:
    """What is expected of a kind."""
    if kind.startswith("whole number "):
        return Expected(kind.replace("whole number", "an integer"))
    if kind.startswith("list "):
        return Expected("an array")
    if kind.startswith("table "):
        return Expected("a table", form=kind[len("table "):])
    if kind.startswith("map "):
        return Expected("a table")
    if kind == "lint":
        return Expected(f"{_of_choice('level').what}, or a table", WORDS["level"], _LINT)
    if kind in WORDS:
        return _of_choice(kind)
    what = _WHAT.get(kind)
    return what and Expected(what, form=_DETAIL if kind == "dependency" else None) or None


def _entry(kind: str) -> str:
    """The kind of an entry of a list or a map."""
    many = kind.partition(" of ")[2]
    for plural, one in (("lists ", "list "), ("maps ", "map "), ("tables ", "table ")):
        if many.startswith(plural):
            return one + many[len(plural):]
    return _SINGULAR[many]


def _row(form: str, key: str) -> Optional[str]:
    """What the key of a table holds."""
    rows = FORMS[form]
    return rows.get(key) or rows.get(key.replace("_", "-")) or rows.get(_OTHERS)


def _below(kind: str, step: Step) -> Optional[str]:
    """The kind of what a step leads to."""
    is_key = isinstance(step, str)
    if kind == _KEPT:
        return kind
    if kind == "boolean or list of texts":
        return None if is_key else "text"
    if kind.startswith("list ") and not is_key or kind.startswith("map ") and is_key:
        return _entry(kind)
    if not isinstance(step, str):
        return None
    if kind.startswith("table "):
        return _row(kind[len("table "):], step)
    if kind == "dependency":
        return _row(_DETAIL, step) or _row(_OF_WORKSPACE, step)
    return _row(_LINT, step) if kind == "lint" else None


def _at(kind: str, path: KeyPath) -> Optional[Expected]:
    """What is expected at a path below a value of the kind."""
    for step in path:
        below = _below(kind, step)
        if below is None:
            return None
        kind = below.removesuffix(", or inherited")
    return _expected(kind)


def expected_at(path: KeyPath) -> Optional[Expected]:
    """What is expected at a key path. Under an old header the path is one of a package."""
    below = path[1:] if path[:1] == ("project",) else path
    return _at(_MANIFEST, path) or _at(_PACKAGE, below)
