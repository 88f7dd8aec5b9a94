"""The tables of docs/KEYS.md: the rows of each form, and the words of each choice."""
import re

from .repository import TOP

LINKED = re.compile(r"\[(.+?)\]\(.*?\)")


def sections():
    """Of each section, the cells of the rows of its table, without the two lines above them."""
    found = {}
    for line in (TOP / "docs" / "KEYS.md").read_text(encoding="utf-8").splitlines():
        if line.startswith("## "):
            rows = found.setdefault(line[3:], [])
        elif line.startswith("|"):
            rows.append([LINKED.sub(r"\1", cell.strip()) for cell in line.split("|")[1:-1]])
    return {name: rows[2:] for name, rows in found.items()}


SECTIONS = sections()
# the rows of each form: key, second spelling, what it holds, when it is needed, when it is written
FORMS = {name: rows for name, rows in SECTIONS.items() if rows and len(rows[0]) == 5}
WORDS = {
    choice: [text if not flag else flag == "true" for text, flag in re.findall(r'"([^"]*)"|(true|false)', words)]
    for choice, words in SECTIONS["Words"]
}
REST = "any other key"
