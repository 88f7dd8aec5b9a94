"""What each kind of docs/KEYS.md reads and what it refuses, for scripts/try/rows.

A case is a value, as it stands in a manifest, with what is written of it, or with the cause with which it is refused and the
rest of the path after the value's own. The first case that is accepted is the one that stands for the kind.
"""

WRONG_KIND = ("wrong kind", "")
WRONG_ENTRY = ("wrong kind", ".a")
NOT_A_CHOICE = ("not a choice", "")
OUT_OF_RANGE = ("out of range", "")

# one value of each kind of TOML: a kind refuses those that it does not list as of the wrong kind
VALUES = ["'a'", "1", "true", "1979-05-27", "0.5", "['a']", "{ a = 'a' }"]


def same(*values):
    """Values that are written as they are."""
    return {value: value for value in values}


# what every kind that may be inherited also reads
LENT = same("{ workspace = true }") | {
    "{ workspace = true, x = 0.5 }": "{ workspace = true }",
    "{ workspace = false }": WRONG_KIND,
    "{ workspace = 'true' }": WRONG_KIND,
    "{}": WRONG_KIND,
}
KEPT = same("'a'", "1", "true", "1979-05-27", "['a']", "{ a = 'a' }", "[]", "{}") | {
    "0.5": ("holds a float", ""),
    "[1, [0.5]]": ("holds a float", "[1][0]"),
    "{ b = 1.5, a = [0.5] }": ("holds a float", ".a[0]"),
}
CASES = {
    "any value without a float": KEPT,
    "metadata": KEPT,
    "text": same("'a'", "''"),
    "boolean": same("true", "false"),
    "`true`": same("true") | {"false": ("not true", "")},
    "list of texts": same("['a']", "['b', 'a']", "[]") | {
        "['a', 1]": ("wrong kind", "[1]"),
        "[['a']]": ("wrong kind", "[0]"),
    },
    "text or boolean": same("'a'", "true", "false"),
    "boolean or list of texts": same("['a']", "[]", "true", "false") | {"['a', true]": ("wrong kind", "[1]")},
    "whole number from 0 to 65535": same("1", "0", "65535") | {
        "-1": OUT_OF_RANGE,
        "65536": OUT_OF_RANGE,
        "65537": OUT_OF_RANGE,
    },
    "whole number from -128 to 127": same("1", "0", "-128", "127") | {
        "-129": OUT_OF_RANGE,
        "128": OUT_OF_RANGE,
        "256": OUT_OF_RANGE,
    },
    "edition": same("'2015'", "'2018'", "'2021'", "'2024'") | {"2021": WRONG_KIND, "'a'": NOT_A_CHOICE},
    "resolver": same("'1'", "'2'", "'3'") | {"'a'": NOT_A_CHOICE},
    "level": same("'forbid'", "'deny'", "'warn'", "'allow'") | {"'a'": NOT_A_CHOICE},
    "status": same(
        "'actively-developed'", "'passively-maintained'", "'as-is'", "'experimental'", "'looking-for-maintainer'",
        "'deprecated'", "'none'",
    ) | {"'a'": NOT_A_CHOICE},
    "strip": {
        "'debuginfo'": "'debuginfo'",
        "'symbols'": "true",
        "true": "true",
        "'none'": "false",
        "false": "false",
        "'a'": NOT_A_CHOICE,
    },
    "map of values without a float": same("{ a = 'a' }", "{ b = { c = 1 }, a = 1979-05-27 }", "{}") | {
        "{ b = 1, a = 0.5 }": ("holds a float", ".a"),
    },
    "map of dependencies": same("{ a = 'a' }", "{}") | {
        "{ b = { workspace = true, path = 1 }, a = { path = 'c' } }": "{ b = { workspace = true }, a = { path = 'c' } }",
        "{ a = 1 }": WRONG_ENTRY,
        "{ b = 'b', a = ['a'] }": WRONG_ENTRY,
        "{ a = { path = 1 } }": ("wrong kind", ".a.path"),
    },
    "map of maps of dependencies": same("{ a = { b = 'c' } }", "{ a = {} }", "{}") | {
        "{ a = 'a' }": WRONG_ENTRY,
        "{ a = { b = 1 } }": ("wrong kind", ".a.b"),
    },
    "map of lints": same("{ a = 'warn' }", "{}") | {
        "{ b = { level = 'deny' }, a = 'allow' }": "{ b = { level = 'deny', priority = 0 }, a = 'allow' }",
        "{ a = 'a' }": ("not a choice", ".a"),
        "{ a = 1 }": WRONG_ENTRY,
        "{ a = {} }": ("missing", ".a.level"),
    },
    "map of maps of lints": same("{ a = { b = 'warn' } }", "{}") | {
        "{ workspace = { b = { level = 'deny' } } }": "{ workspace = { b = { level = 'deny', priority = 0 } } }",
        "{ a = 'a' }": WRONG_ENTRY,
        "{ workspace = true }": ("wrong kind", ".workspace"),
        "{ a = { b = 'a' } }": ("not a choice", ".a.b"),
    },
    "map of lists of texts": same("{ a = ['b'] }", "{ b = [], a = [] }", "{}") | {
        "{ a = 'a' }": WRONG_ENTRY,
        "{ a = ['b', 1] }": ("wrong kind", ".a[1]"),
    },
    "map of tables Platform": {
        "{ a = {} }": "{ a = { dependencies = {}, dev-dependencies = {}, build-dependencies = {} } }",
        "{}": "{}",
        "{ a = 'a' }": WRONG_ENTRY,
        "{ a = { dev_dependencies = [] } }": ("wrong kind", ".a.dev_dependencies"),
    },
    "list of tables Target": {
        "[{}]": "[{ required-features = [] }]",
        "[{ name = 'b' }, { name = 'a', test = true }]":
            "[{ name = 'b', required-features = [] }, { name = 'a', required-features = [] }]",
        "[]": "[]",
        "['a']": ("wrong kind", "[0]"),
        "[{}, { path = 1 }]": ("wrong kind", "[1].path"),
    },
    "table Target": {
        "{ a = 'a' }": "{ required-features = [] }",
        "{ bench = 1 }": ("wrong kind", ".bench"),
    },
    "table Profile": {
        "{ a = 'a' }": "{ package = {} }",
        "{ rpath = 1 }": ("wrong kind", ".rpath"),
    },
    "table Profiles": {
        "{ a = {} }": "{ a = { package = {} } }",
        "{}": "{}",
        "{ a = 'a' }": WRONG_ENTRY,
        "{ release = 1 }": ("wrong kind", ".release"),
    },
    "table Badge": {
        "{ repository = 'r', a = 0.5 }": "{ repository = 'r', branch = 'master' }",
        "{ a = 'a' }": ("missing", ".repository"),
        "{ repository = 'r', service = 1 }": ("wrong kind", ".service"),
    },
    "table Maintenance": {
        "{ status = 'as-is', a = 1 }": "{ status = 'as-is' }",
        "{ a = 'a' }": ("missing", ".status"),
        "{ status = 'a' }": ("not a choice", ".status"),
    },
    "table Badges": {
        "{ a = 'a' }": "{ maintenance = { status = 'none' } }",
        "{ codecov = 1, maintenance = 1 }": "{ maintenance = { status = 'none' } }",
    },
    "table Lints": same("{ a = { b = 'warn' } }", "{ workspace = true }", "{}") | {
        "{ a = 'a' }": WRONG_ENTRY,
        "{ workspace = false }": ("not true", ".workspace"),
        "{ workspace = {} }": ("wrong kind", ".workspace"),
    },
    "table Package": {
        "{ name = 'p', a = 'a' }": "{ name = 'p' }",
        "{ a = 'a' }": ("missing", ".name"),
        "{ name = 1 }": ("wrong kind", ".name"),
    },
    "table Package of the workspace": {
        "{ a = 'a' }": "{}",
        "{ version = { workspace = true } }": ("wrong kind", ".version"),
    },
    "table Workspace": {
        "{ a = 'a' }": "{ members = [] }",
        "{ exclude = 'a' }": ("wrong kind", ".exclude"),
    },
}


def cases_of(holds):
    """Every value that is tried of a kind, with its answer."""
    kind = holds.removesuffix(", or inherited")
    cases = CASES[kind] if kind == holds else CASES[kind] | LENT
    return cases | {value: WRONG_KIND for value in VALUES if value not in cases}


def fitting_value(holds, left_out=""):
    """A value that is read and written, other than the one that is left out, and what is written of it."""
    cases = CASES[holds.removesuffix(", or inherited")]
    return next((value, written) for value, written in cases.items() if isinstance(written, str) and written != left_out)
