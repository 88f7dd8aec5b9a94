"""Random layouts: a table is written as one of its many texts, of which it is known where each value, key and header stands."""
import re

from .documents import Literal
from .places import HEADER, PART, VALUE, Marks

BARE = re.compile(r"[A-Za-z0-9_-]+")
# what cannot stand between double quotes on one line; and where lines end so, what cannot stand between single ones
UNQUOTABLE = re.compile(r'[\x00-\x08\x0a-\x1f\x7f"\\]')
CONTROLS = {"\n": re.compile(r"[\x00-\x08\x0b-\x1f\x7f]"), "\r\n": re.compile(r"[\x00-\x08\x0a-\x1f\x7f]")}


class Layout:
    """One of the many texts of a table: an order of keys, quotes, headers, dotted keys, inline tables, comments, line ends."""

    def __init__(self, random):
        self.random = random
        self.end = random.choice(["\n", "\n", "\n", "\r\n"])
        self.ways = random.choice([(1, 0, 0), (0, 0, 1), (1, 1, 1), (0, 1, 1), (1, 2, 6)])
        self.noise = random.choice([0, 0, 0.05, 0.3])
        self.marks = Marks()
        # where the values, keys and headers stand in the text, once it is written
        self.places = None

    def is_so(self, chance):
        return self.random.random() < chance

    def shuffled(self, items):
        items = list(items)
        self.random.shuffle(items)
        return items

    def space(self):
        return self.random.choice(["", " ", "\t", "   "]) if self.is_so(self.noise) else ""

    def comment(self):
        told = ["#", "# c", "#é", "# [package]", '# "', "#\t'''", "# a = 1 # b"]
        return " " + self.random.choice(told) if self.is_so(self.noise) else ""

    def gap(self):
        """What may stand between two values of an array or of an inline table."""
        return self.comment() + self.end + self.space() if self.is_so(self.noise) else self.space()

    def escaped(self, char):
        """An escape of a character."""
        code = ord(char)
        ways = [f"\\U{code:08x}"]
        if code < 0x10000:
            ways += [f"\\u{code:04X}"] * 3
        if code < 0x100:
            ways.append(f"\\x{code:02x}")
        if char in "\b\t\n\f\r\"\\\x1b":
            ways += ["\\" + "btnfr\"\\e"["\b\t\n\f\r\"\\\x1b".index(char)]] * 4
        return self.random.choice(ways)

    def basic(self, text, lines=False):
        """A text between double quotes, on more than one line if so asked."""
        if not lines and not UNQUOTABLE.search(text) and not self.is_so(self.noise):
            return f'"{text}"'
        out = []
        for char in text:
            is_kept = char >= " " and char not in '"\\\x7f' or char == "\t" or lines and char == "\n" == self.end
            if lines and char not in " \t\r\n" and self.is_so(0.05):
                out.append("\\" + self.space() + self.end + self.space())
            out.append(char if is_kept and not self.is_so(self.noise / 5) else self.escaped(char))
        return '"""' + self.end + "".join(out) + '"""' if lines else '"' + "".join(out) + '"'

    def text(self, text, is_key=False):
        """A text in some quotes."""
        way = self.random.random()
        if way < 0.3 and "'" not in text and not CONTROLS["\r\n"].search(text):
            return f"'{text}'"
        if way > 0.8 and not is_key:
            if way > 0.9 and "'''" not in text and not text.endswith("'") and not CONTROLS[self.end].search(text):
                return f"'''{self.end}{text}'''"
            return self.basic(text, True)
        return self.basic(text)

    def key(self, key):
        is_bare = BARE.fullmatch(key) and not self.is_so(0.05 + self.noise / 2)
        return key if is_bare else self.text(key, is_key=True)

    def number(self, number):
        ways = [str(number)] * 9 + ["+" * (number >= 0) + str(number), f"{number:_}"]
        if number >= 0:
            ways += [hex(number), oct(number), bin(number)]
        return self.random.choice(ways)

    def part(self, path):
        """The part of a key that leads to this path."""
        return self.marks.around(PART, path, self.key(path[-1]))

    def value(self, value, path):
        """The value at a path."""
        return self.marks.around(VALUE, path, self.written(value, path))

    def written(self, value, path):
        """A value on the right of a key, or an item of an array."""
        if isinstance(value, Literal):
            return value
        if isinstance(value, bool):
            return "true" if value else "false"
        if isinstance(value, int):
            return self.number(value)
        if isinstance(value, str):
            return self.text(value)
        is_list = isinstance(value, list)
        if is_list:
            inner = [self.value(item, (*path, index)) for index, item in enumerate(value)]
        else:
            inner = self.pairs(value, path, None)
        if not inner:
            return "[" + self.gap() + "]" if is_list else "{" + self.space() + "}"
        last = "," + self.gap() if self.is_so(self.noise) else self.gap()
        inner = ",".join(self.gap() + item for item in inner) + last
        return "[" + inner + "]" if is_list else "{" + inner + "}"

    def way(self, value, later):
        """How the value of a key is written."""
        is_table = isinstance(value, dict)
        is_tables = isinstance(value, list) and value != [] and all(isinstance(item, dict) for item in value)
        can_have_header = later is not None and (is_table or is_tables)
        inline, dotted, header = self.ways
        weights = [inline, dotted * (is_table and value != {}), header * can_have_header]
        return self.random.choices(["inline", "dotted", "header"], weights if any(weights) else [1, 0, 0])[0]

    def pairs(self, table, path, later):
        """Keys with their values; what is to stand under a header of its own comes `later`."""
        out = []
        for key, value in self.shuffled(table.items()):
            way, inside = self.way(value, later), (*path, key)
            if way == "header":
                later.append((inside, value))
            elif way == "dotted":
                inner = self.pairs(value, inside, later)
                out += [self.part(inside) + self.space() + "." + self.space() + pair for pair in inner]
            else:
                equals = self.random.choice([" = ", "=", "\t=  "]) if self.is_so(self.noise) else " = "
                out.append(self.part(inside) + equals + self.value(value, inside))
        return out

    def header(self, path, opening):
        """The header of the table at a path."""
        key = ".".join(self.key(step) for step in path if isinstance(step, str))
        return self.marks.around(HEADER, path, opening.format(key))

    def section(self, table, path, opening):
        """The lines of a table and of those below it. A table that has some may come after them, or without its header."""
        later = []
        pairs = self.pairs(table, path, later)
        below = [line for inner, value in self.shuffled(later) for line in self.headed(value, inner)]
        own = [self.header(path, opening)] if opening else []
        if opening.startswith("[{") and below:
            if not pairs and self.is_so(0.5):
                return below
            if not any(isinstance(value, dict) for value in table.values()) and self.is_so(0.3):
                return below + own + pairs
        return own + pairs + below

    def headed(self, value, path):
        """The lines of a table, or of a list of tables, under headers."""
        if isinstance(value, dict):
            return self.section(value, path, "[{}]")
        return [line for index, item in enumerate(value) for line in self.section(item, (*path, index), "[[{}]]")]

    def document(self, table):
        """The text of a whole table."""
        lines = []
        for line in self.section(table, (), ""):
            if self.is_so(self.noise):
                lines.append(self.space() + self.comment())
            lines.append(self.space() + line + self.comment())
        mark = "\ufeff" if self.is_so(self.noise / 10) else ""
        text, self.places = self.marks.taken_out(mark + self.end.join(lines) + self.end * (not self.is_so(self.noise)))
        return text
