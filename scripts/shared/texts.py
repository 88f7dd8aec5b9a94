"""Texts of which a part is left out, while all else keeps its place."""
import re


def blank(found):
    """Spaces in place of what was found, and its line ends."""
    return re.sub(r"[^\n]", " ", found.group())
