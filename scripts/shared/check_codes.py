"""The codes of manifest_check, as the table of docs/CHECKS.md has them, and as the constants of the sources do."""
import re
from typing import NamedTuple

from .repository import CRATES, TOP

PAGE = TOP / "docs" / "CHECKS.md"
# the crates of which one has the constants
PLACES = [CRATES / crate / "src" / "codes.rt" for crate in ("manifest_lint", "manifest_rules")]
ROW = re.compile(
    r"^\| \[`(?P<name>[a-z0-9-]+)`\]\(#(?P<link>[a-z0-9-]+)\) \| (?P<level>error|warning|note)(?P<more>, error in 2024)?"
    r" \| (?P<needs>text|folder|root|config|host) \| (?P<about>.+) \|$", re.M
)
# `pub const NAME: Code = code!(Warning to Error, "name", Text);`, or `= warning("name", Needs::Text).error_in_2024();`
CONSTANT = re.compile(
    r"pub const (?P<constant>[A-Z0-9_]+): Code =\s*(?:"
    r'code!\((?P<in_macro>\w+)(?: to (?P<in_2024>\w+))?,\s*"(?P<macro_name>[^"]*)",\s*(?P<macro_needs>\w+),?\s*\)'
    r'|(?P<level>error|warning|note)\(\s*"(?P<name>[^"]*)",\s*Needs::(?P<needs>\w+),?\s*\)(?P<more>\s*\.error_in_2024\(\))?);'
)


class Code(NamedTuple):
    """A code: its name, its level, whether it is an error from the edition 2024 on, and what it looks at."""

    name: str
    level: str
    is_error_in_2024: bool
    needs: str


def rows_of_page():
    """The rows of the tables of docs/CHECKS.md."""
    return list(ROW.finditer(PAGE.read_text(encoding="utf-8")))


def codes_of_page():
    """The codes of these rows, by their names in their order."""
    return {row["name"]: Code(row["name"], row["level"], row["more"] is not None, row["needs"]) for row in rows_of_page()}


def code_of_constant(found):
    if found["in_macro"]:
        is_error = (found["in_2024"] or "").lower() == "error"
        return Code(found["macro_name"], found["in_macro"].lower(), is_error, found["macro_needs"].lower())
    return Code(found["name"], found["level"], found["more"] is not None, found["needs"].lower())


def codes_of_constants():
    """The codes of the constants, by their names, or None where there are no such sources."""
    place = next((place for place in PLACES if place.is_file()), None)
    if place is None:
        return None
    found = map(code_of_constant, CONSTANT.finditer(place.read_text(encoding="utf-8")))
    return {code.name: code for code in found}
