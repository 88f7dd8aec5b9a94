"""Calls of the program manifest_calls, for scripts/try/rows: the lines of a call, and tables and values in one line, as its
answers have them.
"""
import re
import tomllib
from datetime import date
from typing import NamedTuple

BARE = re.compile(r"[A-Za-z0-9_-]+")
ESCAPES = {"\\": "\\\\", '"': '\\"', "\b": "\\b", "\t": "\\t", "\n": "\\n", "\f": "\\f", "\r": "\\r"}
ANSWER = "-> "


class Call(NamedTuple):
    """A call: its name and what it takes, its texts, and the lines of the answer that is wanted."""

    name: str
    texts: list
    answer: list

    def lines(self):
        """The call as it is read: an empty line ends it."""
        first, *further = self.texts
        parts = [f"== {self.name}", *([first] if first else []), *(f"++ {text}" if text else "++" for text in further)]
        return "\n".join(parts) + "\n\n"

    def answered(self):
        """The call as it is to be printed."""
        return self.lines()[:-1] + "".join(f"{ANSWER}{line}\n" for line in self.answer) + "\n"


def text_line(text):
    """A text as `toml` writes it, where it has no line feed or another character without a form of its own."""
    if ('"' in text or "\\" in text) and "'" not in text and not any(letter in text for letter in "\b\t\n\f\r"):
        return f"'{text}'"
    return '"' + "".join(ESCAPES.get(letter, letter) for letter in text) + '"'


def line(value):
    """A value in one line, as `toml` writes it: the keys of a table stand in their order."""
    match value:
        case bool():
            return str(value).lower()
        case str():
            return text_line(value)
        case list():
            return "[" + ", ".join(map(line, value)) + "]"
        case dict():
            keys = {key: key if BARE.fullmatch(key) else text_line(key) for key in sorted(value)}
            return "{ " + ", ".join(f"{keys[key]} = {line(value[key])}" for key in keys) + " }" if keys else "{}"
        case date():
            return value.isoformat()
    return str(value)


def line_of_document(text):
    """The table of a document in one line."""
    return line(tomllib.loads(text))


def document(text, written=None, refusal=None):
    """A document, and what is written of it or with what it is refused."""
    return Call("document", [text], [line_of_document(written) if refusal is None else f"error: {refusal}"])


def without_answers(text):
    """The calls of a file without their answers."""
    return "".join(each for each in text.splitlines(keepends=True) if not each.startswith(ANSWER))
