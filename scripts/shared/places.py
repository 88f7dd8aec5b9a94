"""Where the values, keys and headers of a made text stand: they are marked while it is written, and the marks are taken out."""
import re
from typing import NamedTuple

# characters that are no characters of a text: before and after the number of a mark, and at its end
BEGIN, NUMBERED, END = "\ufdd0", "\ufdd1", "\ufdd2"
MARK = re.compile(f"{BEGIN}([0-9]+){NUMBERED}|{END}")
VALUE, PART, HEADER = "value", "part", "header"


class Span(NamedTuple):
    """A range of bytes: where it begins, and where it ends."""

    start: int
    end: int


class Marks:
    """The marks of a text that is being written."""

    def __init__(self):
        self.named = []

    def around(self, what, path, text):
        """The text, marked as what stands for this path."""
        self.named.append((what, path))
        return f"{BEGIN}{len(self.named) - 1}{NUMBERED}{text}{END}"

    def taken_out(self, text):
        """The bytes of a text without its marks, and what was marked, in the order in which it begins."""
        pieces, spans, opened, length, at = [], {}, [], 0, 0
        for mark in [*MARK.finditer(text), None]:
            pieces.append(text[at : mark.start() if mark else None].encode("utf-8"))
            length += len(pieces[-1])
            if mark and mark[1]:
                opened.append(int(mark[1]))
                spans[opened[-1]] = length
            elif mark:
                number = opened.pop()
                spans[number] = Span(spans[number], length)
            at = mark.end() if mark else None
        return b"".join(pieces), Places([(*self.named[number], span) for number, span in spans.items()])


class Located(NamedTuple):
    """Where something stands: its value, the key before that, and its header, as far as it has them."""

    value: Span | None = None
    key: Span | None = None
    header: Span | None = None


class Places:
    """Where the values of a text stand, the parts of the key before each, and the headers, in the order of the text."""

    def __init__(self, marked):
        self.values, self.parts, self.headers, parts = {}, {}, [], []
        for what, path, span in marked:
            if what == PART:
                parts.append(span)
            elif what == VALUE:
                self.values[path], self.parts[path], parts = span, parts, []
            else:
                self.headers.append((path, span))

    def located(self, path):
        """Where the value at a path stands, or the table that it is missing in: the longest beginning of it that is there."""
        while path and not self.is_there(path):
            path = path[:-1]
        if not path:
            return Located()
        value, key = self.values.get(path), self.key(path)
        return Located(value, key, self.above(value or key) if value or key else self.opening(path))

    def is_there(self, path):
        return any(other[: len(path)] == path for other in (*self.values, *(other for other, _ in self.headers)))

    def key(self, path):
        """The key before a value as far as it leads to this path; of a table the first such key that goes through it."""
        for other, parts in self.parts.items():
            more = len(other) - len(path)
            if other[: len(path)] == path and len(parts) > more:
                return Span(parts[0].start, parts[len(parts) - 1 - more].end)
        return None

    def above(self, span):
        """The last header before a range."""
        return next((header for _, header in reversed(self.headers) if header.end <= span.start), None)

    def opening(self, path):
        """The header that opens a table, or the first item of an array of tables; else the first one that goes through it."""
        opened = [header for other, header in self.headers if other in (path, (*path, 0))]
        through = [header for other, header in self.headers if other[: len(path)] == path]
        return (opened + through)[0]
