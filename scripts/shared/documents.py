"""Random documents for scripts/try/hostile: tables by the forms of docs/KEYS.md, and damaged copies of their texts.

A value is a bool, an int, a str, a list or a dict, or a Literal: what stands in the text as it is, as a float or a date-time.
"""
import re
import tomllib

from .keys_page import FORMS, REST, WORDS

PLAIN = ["a", "b", "foo", "foo-bar", "foo_bar", "x1", "0", "-", "_", "serde", "lib", "main", "release", "workspace"]
ODD = [
    "", "é", "日本語", "😀", "\x00", "\x1f", "\x7f", "tab\t", "new\nline", "\r", "\r\n", "back\\slash", 'q"uote', "'",
    "'''", '"""', "cfg(unix)", "\u0080", "\u0085", "\u2028", "\ufeff", "\ud7ff", "\uffff", "\U0010ffff", " lead", "trail ",
    "#x", "[x]", "a.b", "a = 1", "$__toml_private_datetime", "e\u0301",
]
TEXTS = ["1", "1.0", "^1.2, <2", "MIT", "src/lib.rs", "src/bin/a.rs", "build.rs", "true", "2021", "x y", *PLAIN]
NUMBERS = [0, 1, -1, 2, 16, 127, 128, -128, -129, 65535, 65536, 2**31, 2**53 + 1, 2**63 - 1, -(2**63)]
FLOATS = ["0.5", "1.0", "-0.0", "1e300", "1e-7", "inf", "-inf", "+inf", "nan", "-nan", "3_1.4_1", "6.02E+23"]
DATES = [
    "1979-05-27", "0001-01-01", "9999-12-31", "2024-02-29", "07:32:00", "00:00:00.5", "23:59:59.999999999",
    "1979-05-27T07:32:00", "1979-05-27 07:32:00.25", "1979-05-27T07:32:00Z", "1979-05-27t07:32:00z",
    "1979-05-27T07:32:00-07:30", "2024-12-31T23:59:59.123456+14:00",
]
# what looks like a key that some form has, and is not one
FREE = ["zzz", "license_file", "cargo_features", "split_debuginfo", "rust_version", "workspace_", "Package", "project", "git"]
SINGULAR = {
    "texts": "text", "dependencies": "dependency", "lints": "lint", "values without a float": "any value without a float",
}
TOKENS = """= " ' [ ] [[ ]] { } , . # \\ \\u0041 \\x41 \\e \\uD800 \\U00110000 1 0 - + _ e 1_000 0x1F 0o7 0b1 1e3 1. .5 nan
-nan +inf true True 1979-05-27 07:32 24:00:00 1979-02-30 1979-05-27T07:32:60Z 9223372036854775807 9223372036854775808
\"\"\" ''' a.b=1 [a] [[a]] [a.b] [package] [project] a={b=1} a={b=1,} a={} a=[1,"x"] ""=1 é=1 =1 01 1__0 +0x1 0xg a$""".split()
BROKEN = [
    b"\n", b"\r", b"\r\n", b"\t", b" ", b"\x00", b"\x7f", b"\x1b", b"\x80", b"\xc0\x80", b"\xc3", b"\xe2\x82", b"\xef\xbb\xbf", b"\xf0\x9f\x98", b"\xf4\x90\x80\x80", b"\xed\xa0\x80", b"\xfe\xff", b"\xff",
]


class Literal(str):
    """What stands in the text as it is."""


# how many parts a key may have, and how many arrays and inline tables may stand in one another: toml reads no more
LIMIT = 80
DEPTHS = [1, 3, 40, 77, 78, 79, 80, 81, 82, 200, 1000, 20000]
SHAPES = ["arrays", "inline tables", "both", "dotted keys in both", "a dotted key", "a header", "a header of a list", "all"]
# what no number of 64 bits is, so that a reader of TOML may refuse it
HUGE = [2**63, -(2**63) - 1, 10**400, Literal("1e999")]


# of each form its rows: key, second spelling, what it holds, and whether it is required
ROWS = {
    name: [(key.strip("`"), second.strip("`"), holds, need == "required") for key, second, holds, need, _ in rows]
    for name, rows in FORMS.items()
}


def depth(value):
    """How deep arrays and tables are nested in a value."""
    below = value.values() if isinstance(value, dict) else value if isinstance(value, list) else None
    return 0 if below is None else 1 + max(map(depth, below), default=0)


class Tables:
    """The tables of one document."""

    def __init__(self, random):
        self.random = random
        self.filled = random.choice([0.1, 0.2, 0.3, 0.5])
        self.odd = random.choice([0, 0, 0.1, 0.4])
        self.free = random.choice([0, 0, 0.1, 0.3])
        self.wrong = random.choice([0, 0, 0, 0.003, 0.02])
        self.inherited = random.choice([0.05, 0.3])
        # how many long texts and maps there may be
        self.long = random.choice([0] * 49 + [3])
        self.has_huge = False

    def is_so(self, chance):
        return self.random.random() < chance

    def text(self, usual=TEXTS):
        if self.is_long():
            return self.random.choice(PLAIN + ODD[1:]) * self.random.choice([100, 1000, 3000])
        return self.random.choice(ODD if self.is_so(self.odd) else usual)

    def key(self):
        return self.text(PLAIN)

    def is_long(self):
        if self.long and self.is_so(0.1):
            self.long -= 1
            return True
        return False

    def number(self):
        if self.is_so(0.02):
            self.has_huge = True
            return self.random.choice(HUGE)
        return self.random.choice(NUMBERS)

    def anything(self, level=0, with_float=True):
        """Any value: one in a hundred is nested deep."""
        random = self.random
        if level == 0 and self.is_so(0.01):
            value = self.anything(1, with_float)
            for _ in range(random.choice([5, 20, 70, 77, 78, 79, 80, 90, 200])):
                value = [value] if self.is_so(0.7) else {self.key(): value}
            return value
        kind = random.randrange(16)
        if kind < 3 and level < 4:
            return [self.anything(level + 1, with_float) for _ in range(random.choice([0, 1, 1, 2, 3]))]
        if kind < 6 and level < 4:
            return {self.key(): self.anything(level + 1, with_float) for _ in range(random.choice([0, 1, 1, 2, 3]))}
        if kind < 8 and with_float:
            return Literal(random.choice(FLOATS))
        if kind < 10:
            return Literal(random.choice(DATES))
        return self.number() if kind < 12 else self.is_so(0.5) if kind < 13 else self.text()

    def many(self):
        return range(200 if self.is_long() else self.random.choice([0, 1, 1, 1, 2, 3]))

    def misfit(self, holds):
        """A value that may not be what a row holds, and is near to it at times."""
        choice = self.random.choice
        near = {"workspace": choice([False, "true", 1, [True]])}
        if holds.startswith("whole number"):
            low, high = map(int, re.findall(r"-?\d+", holds))
            near = choice([low - 1, high + 1])
        elif holds == "`true`":
            near = False
        elif holds in ("any value without a float", "metadata"):
            near = choice([Literal(choice(FLOATS)), [0, {self.key(): Literal("0.5")}]])
        elif holds in WORDS:
            near = choice([str(choice(WORDS[holds])) + "!", str(choice(WORDS[holds])).upper(), {choice(PLAIN): {}}])
        return choice([near, near, self.anything(), self.text(), self.number()])

    def value(self, holds):
        """A value for what a row holds; now and then one that does not fit."""
        if self.is_so(self.wrong):
            return self.misfit(holds)
        if holds.endswith(", or inherited"):
            return {"workspace": True} if self.is_so(self.inherited) else self.value(holds[: -len(", or inherited")])
        way, _, what = holds.partition(" of ")
        if way in ("list", "lists"):
            return [self.value(SINGULAR.get(what, what)) for _ in self.many()]
        if way in ("map", "maps"):
            return {self.key(): self.value(SINGULAR.get(what, what)) for _ in self.many()}
        if holds.startswith(("table ", "tables ")):
            return self.form(holds.partition(" ")[2])
        if holds in WORDS:
            return self.random.choice(WORDS[holds])
        return self.simple(holds)

    def simple(self, holds):
        """A value for what holds no table of a form by its name."""
        choice = self.random.choice
        if " or " in holds:
            return self.value(choice(holds.split(" or ")))
        if holds.startswith("whole number"):
            low, high = map(int, re.findall(r"-?\d+", holds))
            return choice([low, high, 0, 1, 7])
        if holds == "dependency":
            ways = ["text", "table Dependency in detail", "table Dependency of the workspace"]
            return self.value(self.random.choices(ways, [2, 2, 3 * self.inherited])[0])
        if holds == "lint":
            return self.value(choice(["level", "table Lint in detail"]))
        if holds in ("any value without a float", "metadata"):
            return self.anything(with_float=False)
        return {"text": self.text, "boolean": lambda: self.is_so(0.5), "`true`": lambda: True}[holds]()

    def form(self, name):
        """A table of this form, with the keys of some of its rows, by either spelling, and with free keys."""
        table = {}
        for key, second, holds, is_required in ROWS[name]:
            if key == REST:
                table |= {other: self.value(holds) for other in (self.key() for _ in self.many()) if other not in table}
            elif self.is_so(self.filled) or is_required and not self.is_so(self.wrong / 2):
                table[second if second and self.is_so(0.3) else key] = self.value(holds)
                if second and self.is_so(self.wrong):
                    table |= {key: self.value(holds), second: self.anything()}
        if self.is_so(self.free) and ROWS[name][-1][0] != REST:
            key = self.random.choice([*FREE, self.key()])
            if all(key not in row[:2] for row in ROWS[name]):
                table[key] = self.anything()
        return table

    def manifest(self, headers=("package", "workspace", "both", "project", "none")):
        """The table of a whole file, with one of these headers."""
        table = self.form("Manifest")
        table.pop("package", None)
        table.pop("workspace", None)
        header = self.random.choices(headers, [12, 4, 4, 2, 2][: len(headers)])[0]
        if header == "none":
            return self.form("Package") | table
        for key in ["package", "workspace"] if header == "both" else [header]:
            table[key] = self.value("table Workspace" if key == "workspace" else "table Package")
        return table


def under(keys, value):
    """A value below tables of one key each."""
    for key in reversed(keys):
        value = {key: value}
    return value


class Nested:
    """A document of a package with one value that is nested deep, in one shape or in all, kept or under a free key."""

    def __init__(self, random):
        self.random = random
        self.named, self.key = random.choice([("a", "a"), ("a b", '"a b"'), ("é", "'é'")])
        shape, depth = random.choice(SHAPES), random.choice(DEPTHS)
        is_all = shape == "all"
        levels = self.levels("dotted keys in both" if is_all else shape, random.choice([3, LIMIT]) if is_all else depth)
        parts, header = {"a dotted key": (depth, 0), "all": (random.choice([2, 70]), 70)}.get(shape, (1, 0))
        header = depth if shape.startswith("a header") else header
        is_list = shape == "a header of a list" or is_all and random.random() < 0.5
        self.is_kept = random.random() < 0.5
        self.above = ["package", "metadata"] if self.is_kept else random.choice([["x"], ["package", "x"]])
        value, text = self.value(levels)
        self.table = {"package": {"name": "p"}}
        self.data = self.document(header, is_list, parts, text).encode("utf-8")
        if self.is_kept:
            inner = under([self.named] * parts, value)
            self.table["package"]["metadata"] = under([self.named] * header, [inner] if header and is_list else inner)
        # (a key begins with those above it that no header has)
        longest = max([len(self.above) + header if header else 0, parts + (not header), *levels])
        self.is_read = longest <= LIMIT and len(levels) <= LIMIT
        self.depth = 3 + header + (is_list and header > 0) + parts + sum(max(1, level) for level in levels)

    def levels(self, shape, depth):
        """Of each level how many parts the key of an inline table has, or 0 for an array."""
        if shape == "dotted keys in both":
            parts = self.random.choice([2, LIMIT - 1, LIMIT, LIMIT + 1])
            ways = self.random.choice([[parts], [0, 1, parts]])
            return self.random.choices(ways, k=min(depth, LIMIT + 1))
        ways = {"arrays": [0], "inline tables": [1], "both": [0, 1]}.get(shape)
        return self.random.choices(ways, k=depth) if ways else []

    def value(self, levels):
        """A value that is nested so, and its text."""
        opened, closed, value = [], [], 1
        for parts in levels:
            beside = self.random.random() < 0.1
            opened.append("{" + ".".join([self.key] * parts) + " = " if parts else "[1, " if beside else "[")
            closed.append(", b = 2}" if parts and beside else "}" if parts else "]")
        for parts, before, behind in zip(reversed(levels), reversed(opened), reversed(closed)):
            if parts:
                value = under([self.named] * parts, value) | ({"b": 2} if len(behind) > 1 else {})
            else:
                value = [1, value] if len(before) > 1 else [value]
        return value, "".join(opened) + "1" + "".join(reversed(closed))

    def document(self, header, is_list, parts, text):
        """The text of the document: under a header with this many parts below the place of the value, or at its place."""
        package = '[package]\nname = "p"\n'
        if header:
            path = ".".join(self.above + [self.key] * header)
            pair = ".".join([self.key] * parts) + " = " + text
            return package + (f"[[{path}]]\n{pair}\n" if is_list else f"[{path}]\n{pair}\n")
        pair = ".".join(self.above[-1:] + [self.key] * parts) + " = " + text + "\n"
        return package + pair if self.above[0] == "package" else pair + package


def damage(random, data):
    """A copy with some bytes flipped, cut, doubled, exchanged or inserted."""
    for _ in range(random.choice([1, 1, 1, 2, 3, 8])):
        at = random.randrange(len(data) + 1)
        end = at + random.choice([1, 1, 2, 5, 40])
        way = random.randrange(8)
        if way == 0:
            data = data[:at] + bytes(byte ^ 1 << random.randrange(8) for byte in data[at : at + 1]) + data[at + 1 :]
        elif way == 1:
            data = data[:at] + bytes([random.randrange(256)]) + data[at + 1 :]
        elif way == 2:
            data = data[:at] if random.random() < 0.5 else data[at:]
        elif way == 3:
            data = data[:at] + data[end:]
        elif way == 4:
            data = data[:end] + data[at:]
        elif way == 5:
            data = data[:at] + random.choice(TOKENS).encode("utf-8") + data[at:]
        elif way == 6:
            data = data[:at] + random.choice(BROKEN) + data[at:]
        else:
            data = exchange_lines(random, data)
    return data


def exchange_lines(random, data):
    """A copy with a line in a place of another, or twice, or a value in the place of another."""
    lines = data.split(b"\n")
    from_line, to_line = random.randrange(len(lines)), random.randrange(len(lines))
    left, right = lines[from_line].partition(b" = "), lines[to_line].partition(b" = ")
    if left[1] and right[1] and random.random() < 0.6:
        lines[to_line] = right[0] + b" = " + random.choice([left[2], random.choice(TOKENS).encode("utf-8")])
    elif random.random() < 0.5:
        lines[to_line] = lines[from_line]
    else:
        lines.insert(to_line, lines[from_line])
    return b"\n".join(lines)


def literals(value):
    """A value of tomllib with its date-times as literals."""
    if isinstance(value, dict):
        return {key: literals(inner) for key, inner in value.items()}
    if isinstance(value, list):
        return [literals(inner) for inner in value]
    return value if isinstance(value, (bool, int, str)) else Literal(value.isoformat().replace("+00:00", "Z"))


def table_of(data):
    """The table of a text as Python reads it; None where it reads none, or where it keeps less than what is written."""
    try:
        text = data.decode("utf-8")
        # (a line end of two characters, an offset of zero, a part of a second)
        if re.search(r"\r|[+-]00:00|:\d\d\.\d{7}", text):
            return None
        return literals(tomllib.loads(text, parse_float=Literal))
    except (ValueError, RecursionError):
        return None
