"""Edits of texts of every layout, with the text that they make.

A case is a text, edits of it, and the text that they make, or the cause of their refusal. An edit is what is done and a path
(keys after dots, `#` before an index; an empty path is that of the whole document), and after these what it takes: the TOML
text of a value, or a key.
"""
from typing import Union

from cargo_manifest import Cause

Row = Union[tuple[str, str], tuple[str, str, str]]
Case = tuple[str, list[Row], Union[str, Cause]]

# other values
SETS: list[Case] = [
    ("a = 1 # one\n", [("set", "a", "[2]")], "a = [2] # one\n"),
    ("a.b = { c = [1, 2] }", [("set", "a.b.c.#1", "'x'")], "a.b = { c = [1, 'x'] }"),
    ("a = 1\nb = 2\n", [("set", "b", "3"), ("set", "a", "4")], "a = 4\nb = 3\n"),
    ("a = 1\n", [("set", "a", "1\nb = 2")], Cause.NOT_A_VALUE),
    ("a = [1]\n", [("set", "a.#0", "3, 4")], Cause.NOT_A_VALUE),
    ("a = 1\n", [("set", "a", "2 # x")], Cause.NOT_A_VALUE),
    ("a = 1\n", [("set", "b", "2")], Cause.NO_PLACE),
    ("[a]\n", [("set", "a", "2")], Cause.NO_PLACE),
    ("a = \n", [("set", "a", "2")], Cause.NO_TOML),
    ("a = 1\na = 2\n", [("set", "a", "3")], Cause.NO_TOML),
    ("a = [1]\n", [("set", "a", "2"), ("set", "a.#0", "3")], Cause.OVERLAP),
]

# new entries of tables
ENTRIES: list[Case] = [
    ("a = 1\n", [("insert", "b", "2")], "a = 1\nb = 2\n"),
    ("a = 1", [("insert", "b c", "2")], 'a = 1\n"b c" = 2'),
    ("", [("insert", "a", "1")], "a = 1\n"),
    ("\ufeff[t]\r\n", [("insert", "a", "1")], "\ufeffa = 1\r\n[t]\r\n"),
    (
        "[a]\r\nb = 1 # one\r\n\r\n# of c\r\n[c]\r\n",
        [("insert", "a.d", "2"), ("insert", "c.e", "3")],
        "[a]\r\nb = 1 # one\r\nd = 2\r\n\r\n# of c\r\n[c]\r\ne = 3\r\n",
    ),
    ("[[a]]\nb = 1\n[[a]]\nb = 2\n", [("insert", "a.#0.c", "3")], "[[a]]\nb = 1\nc = 3\n[[a]]\nb = 2\n"),
    ("a = { b = 1 }\n", [("insert", "a.c", "2")], "a = { b = 1, c = 2 }\n"),
    ("a = {}\n", [("insert", "a.c", "2")], "a = { c = 2 }\n"),
    ("[a.b]\n", [("insert", "a.c", "2")], "[a.b]\n\n[a]\nc = 2\n"),
    ("a = 1\n", [("insert", "a", "2")], Cause.NOT_EDITED),
    ("a = 1\n", [("insert", "b.c", "2")], Cause.NOT_EDITED),
    ("a = 1\n", [("insert", "", "2")], Cause.NO_PLACE),
    ("a = [1]\n", [("insert", "a.b", "2")], Cause.NO_PLACE),
    ("a = 1\n", [("insert", "b", "2 # x")], Cause.NOT_A_VALUE),
    ("a = { b = 1, }\n", [("insert", "a.c", "[ # two\n2]")], "a = { b = 1, c = [ # two\n2], }\n"),
    ("a.b = 1 # b\nc = 2\n", [("insert", "a.d e", "3")], 'a.b = 1 # b\na."d e" = 3\nc = 2\n'),
    ("[x]\na = { b.c = 1 }\n", [("insert", "x.a.b.d", "2")], "[x]\na = { b.c = 1, b.d = 2 }\n"),
    ("[a]\n  b = 1 # b\n\n# of c\n[c]\n", [("insert", "a.d", "2")], "[a]\n  b = 1 # b\n  d = 2\n\n# of c\n[c]\n"),
    ("# a file\n\n# of t\n[t]\n", [("insert", "a", "1"), ("insert", "b", "2")], "# a file\n\na = 1\nb = 2\n\n# of t\n[t]\n"),
    ("# x\n[t]\n", [("insert", "a", "1")], "a = 1\n# x\n[t]\n"),
    ("# x\n", [("insert", "a", "1")], "# x\na = 1\n"),
    ('[a."b#c".x]\n', [("insert", "a.b#c.d", "1"), ("insert", "a.b#c.e", "2")], '[a."b#c".x]\n\n[a."b#c"]\nd = 1\ne = 2\n'),
]

# new items of arrays
ITEMS: list[Case] = [
    ("a = [1]\n", [("insert", "a.#0", "2")], Cause.NO_PLACE),
    ("a = [1]\n", [("insert", "a.#2", "2")], Cause.NO_PLACE),
    ("a = {}\n", [("insert", "a.#0", "2")], Cause.NO_PLACE),
    ("a = [1]\n", [("insert", "a.#1", "2, 3")], Cause.NOT_A_VALUE),
    ("a = [1]\n", [("insert", "a.#1", "2")], "a = [1, 2]\n"),
    ("a = [1, 2,] # x\n", [("insert", "a.#2", "3")], "a = [1, 2, 3,] # x\n"),
    ("a = []\n", [("insert", "a.#0", "{ b = 1 }")], "a = [{ b = 1 }]\n"),
    ("a = [ ]\n", [("insert", "a.#0", "1")], "a = [ 1 ]\n"),
    ("a = { }\n", [("insert", "a.b", "1")], "a = {b = 1 }\n"),
    ("a = {  }\n", [("insert", "a.b", "1")], "a = { b = 1  }\n"),
    (
        "a = []\nb = {}\n",
        [("insert", "a.#0", "1"), ("insert", "b.c", "2"), ("insert", "a.#0", "3"), ("insert", "b.d", "4")],
        "a = [1, 3]\nb = { c = 2, d = 4 }\n",
    ),
    (
        "a = [\r\n  1, # one\r\n  2, # two\r\n  # end\r\n]\r\n",
        [("insert", "a.#2", "3")],
        "a = [\r\n  1, # one\r\n  2, # two\r\n  3,\r\n  # end\r\n]\r\n",
    ),
    ("a = [\n\t1,\n\t2 # two\n]\n", [("insert", "a.#2", "3")], "a = [\n\t1,\n\t2, # two\n\t3\n]\n"),
    ("a = [\n  1\n]\n", [("insert", "a.#1", "2"), ("insert", "a.#1", "3")], "a = [\n  1,\n  2,\n  3\n]\n"),
    ("a = [ # none\n]\n", [("insert", "a.#0", "1")], "a = [ # none\n    1,\n]\n"),
    (
        "a = [\n  [1, 2], # one\n  [\n    3,\n  ],\n]\n",
        [("insert", "a.#0.#2", "4"), ("insert", "a.#1.#1", "5"), ("insert", "a.#2", "[]")],
        "a = [\n  [1, 2, 4], # one\n  [\n    3,\n    5,\n  ],\n  [],\n]\n",
    ),
]

# entries and items taken out, of one
REMOVES: list[Case] = [
    ("# x\na = 1 # y\n# z\nb = 2\n", [("remove", "a")], "# x\n# z\nb = 2\n"),
    ("a = 1\nb = 2", [("remove", "b")], "a = 1"),
    ("a = '''\n\n''' # x\r\nb = 2\r\n", [("remove", "a")], "b = 2\r\n"),
    ("a = [1, 2, 3]", [("remove", "a.#0")], "a = [2, 3]"),
    ("a = [1, 2, 3]", [("remove", "a.#2")], "a = [1, 2]"),
    ("a = [1, 2, 3]", [("remove", "a.#0"), ("set", "a.#2", "4")], "a = [2, 4]"),
    ("a = [\n  1, # one\n  2,\n  3,\n]", [("remove", "a.#1")], "a = [\n  1, # one\n  3,\n]"),
    ("a = { b.c = 1, d = 2 }", [("remove", "a.d")], "a = { b.c = 1 }"),
    ("a = { d = 2 }", [("remove", "a.d")], "a = {}"),
    ("a = {d = 2 }", [("remove", "a.d")], "a = { }"),
    ("a = [ 1 ]", [("remove", "a.#0")], "a = [ ]"),
    ("a = [\n  1, # one\n\n  # two\n  2\n]\n", [("remove", "a.#1")], "a = [\n  1 # one\n\n  # two\n]\n"),
    ("a = [\n  1, # one\n  2,\n]\n", [("remove", "a.#1")], "a = [\n  1, # one\n]\n"),
    ("# x\r\n\r\na = 1 # y\r\n \r\n[t]\r\n", [("remove", "a")], "# x\r\n\r\n[t]\r\n"),
    ("b = 1\na = 1\n\n[t]\n", [("remove", "a")], "b = 1\n\n[t]\n"),
    ("[a]\n", [("remove", "a")], Cause.NO_PLACE),
    ("a = [1, 2]\n", [("remove", "a.#0"), ("remove", "a.#1")], "a = []\n"),
    ("a = [1, 2, 3]\n", [("remove", "a.#0"), ("remove", "a.#1")], "a = [3]\n"),
]

# several taken out, and others put in next to them
NEIGHBOURS: list[Case] = [
    ("a = [1, 2, 3]\n", [("remove", "a.#2"), ("remove", "a.#1")], "a = [1]\n"),
    ("a = [1, 2, 3]\n", [("remove", "a.#2"), ("remove", "a.#0")], "a = [2]\n"),
    ("a = [ 1, 2, 3, ]\n", [("remove", "a.#1"), ("remove", "a.#2")], "a = [ 1, ]\n"),
    ("a = { b = 1, c = 2, d = 3 }\n", [("remove", "a.c"), ("remove", "a.d")], "a = { b = 1 }\n"),
    ("a = { b = 1, c = 2 }\n", [("remove", "a.c"), ("remove", "a.b")], "a = {}\n"),
    (
        "a = [\n  1, # one\n  2, # two\n  # last\n  3 # three\n]\n",
        [("remove", "a.#1"), ("remove", "a.#2")],
        "a = [\n  1, # one\n  # last\n]\n",
    ),
    ("a = [\n  1, 2,\n  3 ]\n", [("remove", "a.#1")], "a = [\n  1,\n  3 ]\n"),
    ("a = [\n  1,\n  2,\n  3 ]\n", [("remove", "a.#1"), ("remove", "a.#2")], "a = [\n  1,\n ]\n"),
    (
        "a = [\n  [\n    1,\n    2\n  ],\n  [3, 4]\n]\n",
        [("remove", "a.#0.#0"), ("remove", "a.#0.#1"), ("remove", "a.#1.#1")],
        "a = [\n  [\n  ],\n  [3]\n]\n",
    ),
    ("a = [1, 2]\n", [("remove", "a.#1"), ("insert", "a.#2", "3")], "a = [1, 3]\n"),
    ("a = { b = 1 }\n", [("remove", "a.b"), ("insert", "a.c", "2")], "a = { c = 2 }\n"),
    ("a = [\n  1,\n  2\n]\n", [("insert", "a.#2", "3"), ("remove", "a.#1")], "a = [\n  1,\n  3\n]\n"),
    ("a = 1\r\nb = 2\r\nc = 3", [("remove", "b"), ("remove", "c")], "a = 1\r\n"),
]

# other keys
RENAMES: list[Case] = [
    ("a.b.c = 1\n", [("rename", "a.b", "x y")], 'a."x y".c = 1\n'),
    ("'a' . b = 1\n", [("rename", "a", "c")], "c . b = 1\n"),
    ("a.b = 1\na.c = 2\n", [("rename", "a", "d")], "d.b = 1\nd.c = 2\n"),
    ("a.b = 1\nd = 2\na.c = 3\n", [("rename", "a", "e"), ("set", "d", "4")], "e.b = 1\nd = 4\ne.c = 3\n"),
    ('# [a]\n[ "a" . b ] # [a]\n[a.b.c]\na = 1\n', [("rename", "a", "d")], "# [a]\n[ d . b ] # [a]\n[d.b.c]\na = 1\n"),
    ("[a.b]\n[a.b.c]\n[a.d]\n", [("rename", "a.b", "x y"), ("set", "a.b.c", "1")], Cause.NO_PLACE),
    (
        "[a.b]\nc = 1\n[a.b.d]\n[a.e]\n",
        [("rename", "a.b", "x y"), ("set", "a.b.c", "2")],
        '[a."x y"]\nc = 2\n[a."x y".d]\n[a.e]\n',
    ),
    ("[[a]]\n[a.b]\nc = [[1]]\n[[a]]\n", [("rename", "a", "d"), ("rename", "a.#0.b", "e")], "[[d]]\n[d.e]\nc = [[1]]\n[[d]]\n"),
    ("a.b = 1\n[a.c]\nd = 2\n", [("rename", "a", "x")], "x.b = 1\n[x.c]\nd = 2\n"),
    ("[a]\n[b]\n", [("rename", "a", "b")], Cause.NOT_EDITED),
    ("a = 1\n", [("rename", "a", "b"), ("set", "a", "2")], Cause.OVERLAP),
    ("a = 1\nb = 2\n", [("rename", "a", "b")], Cause.NOT_EDITED),
    ("a = 1\nb = 2\n", [("rename", "a", ""), ("remove", "b")], '"" = 1\n'),
]
