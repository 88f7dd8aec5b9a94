"""Manifests for scripts/try/faults, of which it is known beforehand what is found in them: good ones by the tables of
docs/KEYS.md, into which faults, badges that do not fit and keys that nothing reads are put at places that are noted.

The value of a key is good by its kind, which is made of the words of docs/KEYS.md. One walk over a manifest, kind by kind,
lists what may be done at each place; one of it is done, and the place is closed: nothing else is put there, above it or below
it. Each place has its path, and its rank: where it comes among all that is found.
"""
import re
from typing import Any, NamedTuple

from .documents import DATES, FLOATS, ODD, Literal
from .keys_page import FORMS as TABLES
from .keys_page import REST, WORDS

NAMES = ["a", "b", "serde", "foo-bar", "x_1", "0", "é", "a.b", "cfg(unix)", "", 'q"', "workspace", "lib", "-"]
TEXTS = ["1", "1.0", "MIT", "src/lib.rs", "true", "2021", "x y", "é", "", "^1.2, <2", *ODD[1:12]]
FREE = ["zzz", "Package", "licence", "autobin", "dependecies", "git2", "é", "a b", "metadat", "$", "workspaces", "profiles"]
SINGULAR = {"texts": "text", "dependencies": "dependency", "lints": "lint", "values without a float": "kept"}
KEPT = ("any value without a float", "kept")
HEADERS = {"package": 12, "workspace": 4, "both": 4, "project": 3, "none": 3}
FAULT, IGNORED, UNUSED = "fault", "ignored", "unused"
WRONG_KIND, MISSING, TWO_SPELLINGS, NOT_A_CHOICE = "wrong kind", "missing", "two spellings", "not a choice"
OUT_OF_RANGE, NOT_TRUE, HOLDS_FLOAT = "out of range", "not true", "holds a float"


class Row(NamedTuple):
    """A row of a form: the spellings of its key, the kind of its value, whether it is required, and whether what does not fit
    refuses nothing."""

    key: str
    second: str
    kind: tuple
    is_required: bool
    is_lenient: bool


class Place(NamedTuple):
    """Where something may be put: the path, the rank, whether it is below a badge, the form, and the texts that are allowed
    there, if it is a choice."""

    path: tuple
    rank: tuple
    is_lenient: bool
    form: str
    choices: tuple = ()

    def below(self, step, rank, **more):
        return self._replace(path=self.path + (step,), rank=self.rank + (rank,), **more)


class Finding(NamedTuple):
    """What is to be found. Sorted by their ranks, findings stand in the order in which they are reported."""

    rank: tuple
    what: str
    path: tuple
    cause: Any
    choices: tuple
    form: str


def kind_of(holds):
    """The kind of a value, of what a row holds."""
    if holds.endswith(", or inherited"):
        return "inherited", kind_of(holds[: -len(", or inherited")])
    way, _, what = holds.partition(" of ")
    if way in ("list", "lists", "map", "maps"):
        return way[:4].rstrip("s"), kind_of(SINGULAR.get(what, what))
    if holds.startswith(("table ", "tables ")):
        return "form", holds.partition(" ")[2]
    if holds.startswith("whole number"):
        return "whole", *map(int, re.findall(r"-?\d+", holds))
    return ("kept",) if holds in KEPT else ("choice", holds) if holds in WORDS else (holds.strip("`"),)


FORMS = {
    name: [Row(key.strip("`"), second.strip("`"), kind_of(holds), need == "required", "fit" in need)
           for key, second, holds, need, _ in rows]
    for name, rows in TABLES.items()
}


def choices_of(kind):
    """The texts that a value of the kind may be, if it is a choice."""
    name, *more = kind
    if name == "inherited":
        return choices_of(more[0])
    words = WORDS[more[0]] if name == "choice" else WORDS["level"] if name == "lint" else []
    return tuple(word for word in words if isinstance(word, str))


def spelled(form):
    """Both spellings of all keys of a form."""
    return {word for row in FORMS[form] for word in (row.key, row.second) if word and word != REST}


def is_open(form):
    return FORMS[form][-1].key == REST


class Planted:
    """One manifest, with what is to be found in it."""

    def __init__(self, random):
        self.random = random
        self.filled = random.choice([0.05, 0.1, 0.2, 0.4])
        self.header = random.choices(list(HEADERS), HEADERS.values())[0]
        self.closed = set()
        self.found = []
        self.table = self.manifest()
        for _ in range(random.choice([0, 1, 1, 2, 3, 4, 5])):
            self.plant(lambda what: what != UNUSED)
        for _ in range(random.choice([0, 0, 1, 2, 3])):
            self.plant(lambda what: what == UNUSED)
        if "badges" in self.table and self.is_so(0.5):
            self.plant(lambda what: what == IGNORED)
        self.found.sort()

    def is_so(self, chance):
        return self.random.random() < chance

    def wanted(self, what):
        """The paths, causes and choices of this kind, in their order."""
        return [(each.path, each.cause, each.choices) for each in self.found if each.what == what]

    # good values

    def many(self):
        return range(self.random.choice([0, 1, 1, 2, 3]))

    def anything(self, level=0, floats=False):
        """Any value, with or without floats in it."""
        way = self.random.randrange(9 + 2 * floats)
        if way < 2 and level < 3:
            return [self.anything(level + 1, floats) for _ in self.many()]
        if way < 4 and level < 3:
            return {self.random.choice(NAMES): self.anything(level + 1, floats) for _ in self.many()}
        if way > 8:
            return Literal(self.random.choice(FLOATS))
        return self.random.choice([True, False, 0, -1, 2**63 - 1, *TEXTS[:6], Literal(self.random.choice(DATES))])

    def good(self, kind):
        """A value of the kind."""
        name, *more = kind
        if name == "inherited":
            return {"workspace": True} if self.is_so(0.2) else self.good(more[0])
        if name == "list":
            return [self.good(more[0]) for _ in self.many()]
        if name == "map":
            return {self.random.choice(NAMES): self.good(more[0]) for _ in self.many()}
        if name in ("choice", "whole"):
            return self.random.choice(WORDS[more[0]] if name == "choice" else [more[0], more[1], 0, 1])
        return self.form(more[0]) if name == "form" else self.simple(name)

    def simple(self, name):
        """A value of a kind without parts."""
        choice = self.random.choice
        ways = {
            "text": lambda: choice(TEXTS),
            "boolean": lambda: self.is_so(0.5),
            "true": lambda: True,
            "kept": self.anything,
            # (metadata is not looked at)
            "metadata": lambda: self.anything(0, True),
            "text or boolean": lambda: choice([*TEXTS, True, False]),
            "boolean or list of texts": lambda: choice([True, False, self.good(("list", ("text",)))]),
            "dependency": lambda: choice([choice(TEXTS), self.form("Dependency in detail"), self.inherited()]),
            "lint": lambda: choice([*WORDS["level"], self.form("Lint in detail")]),
        }
        return ways[name]()

    def inherited(self):
        return self.form("Dependency of the workspace")

    def form(self, name):
        """A table of the form, by either spelling of each key."""
        table = {}
        for key, second, kind, is_required, _ in FORMS[name]:
            if key == REST:
                table |= {each: self.good(kind) for each in self.random.sample(NAMES, len(self.many())) if each not in table
                          and each not in spelled(name)}
            elif is_required or self.is_so(self.filled):
                table[second if second and self.is_so(0.3) else key] = self.good(kind)
        return table

    def manifest(self):
        """The table of a whole file, by its header."""
        table = {key: value for key, value in self.form("Manifest").items() if key not in ("package", "workspace")}
        if self.header == "none":
            package = self.form("Package")
            package.pop("workspace", None)
            return package | table
        for key in ["package", "workspace"] if self.header == "both" else [self.header]:
            table[key] = self.form("Workspace" if key == "workspace" else "Package")
        return table

    # what may be put where

    def is_free(self, path):
        """Whether nothing was put there, above it or below it."""
        return not any(path[: len(each)] == each or each[: len(path)] == path for each in self.closed)

    def plant(self, is_wanted):
        """Does one thing of this kind that may be done, if there is any. Each kind of it comes about as often."""
        by_cause = {}
        for each in self.root():
            what = UNUSED if each[1] == UNUSED else IGNORED if each[0].is_lenient else FAULT
            if is_wanted(what):
                by_cause.setdefault((each[1], each[0].form), []).append((what, *each))
        if not by_cause:
            return
        causes = sorted({cause for cause, _ in by_cause})
        cause = self.random.choice(causes)
        form = self.random.choice(sorted(form for each, form in by_cause if each == cause))
        what, place, _, closes, put = self.random.choice(by_cause[cause, form])
        put()
        self.closed |= {place.path, *closes}
        choices = place.choices if cause == NOT_A_CHOICE else ()
        self.found.append(Finding(place.rank, what, place.path, None if what == UNUSED else cause, choices, form))

    def root(self):
        """What may be done in the whole table. Each of it is the place, the cause, other paths that it closes, and the deed."""
        top = Place((), (), False, "Manifest")
        yield from self.rows("Manifest", self.table, top, {"package", "workspace"} if self.is_old() else set())
        words = spelled("Manifest")
        if self.header == "none":
            yield from self.rows("Package", self.table, top._replace(form="Package"), {"workspace"}, 1)
            words |= spelled("Package")
        elif self.header == "project":
            yield from self.at(("form", "Package"), self.table, "project", top.below("project", (1, 0, b"")))
        yield from self.unused(words | {"package", "workspace", "project"}, self.table, top)
        if not self.is_old():
            yield from self.unused(words, self.table, top, ["project", "name"])

    def is_old(self):
        return self.header in ("project", "none")

    def at(self, kind, holder, step, place):
        """What may be done at the value that the holder has there, or will have."""
        if self.is_free(place.path):
            allowed = place._replace(choices=choices_of(kind))
            for cause, value in self.misfits(kind):
                yield allowed, cause, (), lambda value=value: put(holder, step, value)
        is_there = step < len(holder) if isinstance(holder, list) else step in holder
        if is_there and all(place.path[: len(each)] != each for each in self.closed):
            yield from self.inside(kind, holder[step], place)

    def inside(self, kind, value, place):
        """What may be done inside a good value."""
        name, *more = kind
        if name == "inherited":
            if isinstance(value, dict):
                yield from self.unused({"workspace"}, value, place)
                return
            yield from self.inside(more[0], value, place)
        elif name == "list" or name == "boolean or list of texts" and isinstance(value, list):
            for index in range(len(value) + 1):
                yield from self.at(more[0] if more else ("text",), value, index, place.below(index, (0, index, b"")))
        elif name == "map":
            for key in [*value, self.random.choice(NAMES)]:
                yield from self.at(more[0], value, key, place.below(key, (0, 0, key.encode())))
        elif name == "kept":
            yield from self.inside_kept(value, place)
        elif isinstance(value, dict) and name != "metadata":
            is_inherited = name == "dependency" and value.get("workspace") is True
            wanted = {"dependency": "Dependency in detail", "lint": "Lint in detail", "form": more and more[0]}[name]
            yield from self.inside_form("Dependency of the workspace" if is_inherited else wanted, value, place)

    def inside_kept(self, value, place):
        """A float in the place of any value in a kept one."""
        steps = range(len(value)) if isinstance(value, list) else value if isinstance(value, dict) else ()
        for step in steps:
            rank = (0, step, b"") if isinstance(value, list) else (0, 0, step.encode())
            yield from self.at(("kept",), value, step, place.below(step, rank))

    def inside_form(self, form, table, place):
        """What may be done in a table of a form."""
        place = place._replace(form=form)
        is_inherited = form == "Dependency of the workspace"
        yield from self.rows(form, table, place, {"workspace"} if is_inherited else set())
        if is_open(form):
            key, kind = self.random.choice(NAMES), FORMS[form][-1].kind
            for key in {key: None} | table:
                if key not in spelled(form):
                    yield from self.at(kind, table, key, place.below(key, (1, 0, key.encode())))
        else:
            yield from self.unused(spelled(form), table, place)

    def rows(self, form, table, place, left_out, group=0):
        """What may be done at the rows of a form but for some keys."""
        for index, row in enumerate(FORMS[form]):
            if row.key in left_out or row.key == REST:
                continue
            rank, is_lenient = (group, index, b""), place.is_lenient or row.is_lenient
            first, second = (place.below(key, rank, is_lenient=is_lenient) for key in (row.key, row.second))
            is_free = self.is_free(first.path) and (not row.second or self.is_free(second.path))
            by_second = row.second in table if row.second else False
            if row.is_required and is_free:
                yield first, MISSING, (), lambda row=row: table.pop(row.key)
            if row.second and is_free:
                yield first, TWO_SPELLINGS, (second.path,), lambda row=row: self.clash(row, table)
            if row.key in table and by_second or first.path in self.closed and row.key not in table:
                continue
            yield from self.at(row.kind, table, row.second if by_second else row.key, second if by_second else first)

    def clash(self, row, table):
        """Both spellings of a key: what stands there is not looked at."""
        for key in (row.key, row.second):
            if key not in table or self.is_so(0.5):
                table[key] = self.anything(2, True)

    def unused(self, words, table, place, names=()):
        """A key that nothing reads, with any value: a misspelled one, or one that another table has."""
        key = self.random.choice(names or [*FREE, self.misspelled(words), self.random.choice(sorted(spelled("Package")))])
        value = self.anything(0, True)
        if (key == "workspace" and value is True) or key in words or key in table:
            return
        place = place.below(key, (2, 0, key.encode()), is_lenient=False)
        if self.is_free(place.path):
            yield place, UNUSED, (), lambda: table.update({key: value})

    def misspelled(self, words):
        """One of the words, or one like it."""
        word = self.random.choice(sorted(words)) or "x"
        at = self.random.randrange(len(word))
        ways = [word[:at] + word[at + 1 :], word[:at] + word[at] + word[at:], word.replace("-", "_"), word.upper(), word + "s"]
        return self.random.choice(ways)

    def other(self, *kinds):
        """A value of none of these types of Python."""
        ways = {
            str: lambda: self.random.choice(TEXTS),
            bool: lambda: self.is_so(0.5),
            int: lambda: self.random.choice([0, 1, -1, 65536, 2**63 - 1]),
            list: lambda: [self.anything(2, True) for _ in self.many()],
            dict: lambda: {key: self.anything(2, True) for key in self.random.sample(NAMES, 2) if key != "workspace"},
            float: lambda: Literal(self.random.choice([*FLOATS, *DATES])),
        }
        return ways[self.random.choice([way for way in ways if way not in kinds])]()

    def misfits(self, kind):
        """Values that do not fit in the place of one of this kind, each with the cause."""
        name, *more = kind
        if name == "inherited":
            yield from self.misfits(more[0])
            yield WRONG_KIND, {"workspace": self.random.choice([False, 1, "true", [True]]), "x": 1}
            return
        if name == "metadata":
            return
        if name == "kept":
            yield HOLDS_FLOAT, Literal(self.random.choice(FLOATS))
            return
        if name == "choice" or name == "lint":
            words = WORDS["level" if name == "lint" else more[0]]
            word = str(self.random.choice(words))
            yield NOT_A_CHOICE, self.random.choice([word.upper() + "!", word[:-1], word + " ", "", "x", "1.0"])
            fits = [str] + [dict] * (name == "lint") + [bool] * (True in words)
        elif name == "whole":
            yield OUT_OF_RANGE, self.random.choice([more[0] - 1, more[1] + 1, 2**63 - 1, -(2**63)])
            fits = [int]
        else:
            if name == "true":
                yield NOT_TRUE, False
            fits = TYPES[name]
        yield WRONG_KIND, self.other(*fits)


# the types of Python of the values of a kind
TYPES = {
    "text": [str], "boolean": [bool], "true": [bool], "list": [list], "map": [dict], "form": [dict],
    "text or boolean": [str, bool], "boolean or list of texts": [bool, list], "dependency": [str, dict],
}


def put(holder, step, value):
    """Puts a value into a table or a list, at a place that is there or is the next one."""
    if isinstance(holder, list) and step == len(holder):
        holder.append(value)
    else:
        holder[step] = value
