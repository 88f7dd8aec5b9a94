"""The links of pages: scripts/text/links follows those of the repository, scripts/ship/installed and scripts/ship/pack those of
what they install and pack. Links to other sites are not followed, and code is not looked at."""
import re
from urllib.parse import unquote

from .texts import blank

# code: a fenced block, an indented one, and what stands in backquotes
BLOCK = re.compile(r"^[ \t]*```.*?^[ \t]*```$|(?<=\n\n)(?:    [^\n]*\n)+", re.S | re.M)
CODE = re.compile(r"``.*?``|`[^`\n]*`")
LINK = re.compile(r"\]\(([^()\s]*)\)")
HEADING = re.compile(r"^#{1,6} +(.*?) *#*$", re.M)
ELSEWHERE = re.compile(r"[a-z]+:")


def anchors(text):
    """The names by which the headings of a page are reached, as GitHub makes them."""
    names = set()
    for heading in HEADING.findall(BLOCK.sub(blank, text)):
        words = re.sub(r"\[([^]]*)\]\([^)]*\)", r"\1", heading).lower()
        base = re.sub(r"[^\w\- ]", "", words).replace(" ", "-")
        number, name = 0, base
        while name in names:
            number += 1
            name = f"{base}-{number}"
        names.add(name)
    return names


def links(text):
    """The links of a page, each with its line."""
    bare = CODE.sub(blank, BLOCK.sub(blank, text))
    for found in LINK.finditer(bare):
        if not ELSEWHERE.match(found[1]):
            yield bare.count("\n", 0, found.start()) + 1, found[1]


def fault_of(page, text, link, allowed):
    """Why a link of a page leads nowhere, or None."""
    path, _, anchor = map(unquote, link.partition("#"))
    target = (page.parent / path).resolve() if path else page
    if not target.exists():
        return f"there is no {path}"
    if not target.is_relative_to(allowed):
        return f"{path} lies outside of {allowed}"
    if anchor and anchor not in anchors(text if target == page else target.read_text(encoding="utf-8")):
        return f"{path or 'the page'} has no heading {anchor}"
    return None


def broken(folder, pages=None):
    """Of each link of the pages, or of all pages of the folder: where it stands, and why it leads nowhere or None."""
    folder = folder.resolve()
    for page in sorted(folder.rglob("*.md")) if pages is None else pages:
        text = page.read_text(encoding="utf-8")
        for line, link in links(text):
            yield f"{page.relative_to(folder)}:{line}: {link}", fault_of(page, text, link, folder)
