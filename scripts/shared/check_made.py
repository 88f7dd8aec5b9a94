"""Packages made at random, about which Cargo is asked. Each is made from the seed and its number alone.

A package is a right one with one part in question: a version, a requirement, a name, a platform, a key and so on, with a value
that is drawn from the characters of which such values consist, or from values that are nearly right. So what Cargo says of the
package is what it says of that value.
"""
from random import Random

HEAD = '[package]\nname = "a"\nversion = "0.1.0"\nedition = "{edition}"\n'
EDITIONS = ["2015", "2018", "2021", "2021", "2024"]
FILES = {"src/lib.rs": b"", "src/main.rs": b"fn main() {}\n", "t.rs": b"fn main() {}\n"}
B = {"b/Cargo.toml": HEAD.format(edition="2021").replace('"a"', '"b"').encode() + b"[features]\nx = []\n", "b/src/lib.rs": b""}
LETTERS = ["a", "b", "Z", "_", "-", "1", "0", ".", "+", ":", "/", " ", "é", "漢", "😀", "'", "@", "#", "\\u0301", "\\t"]
NUMBERS = ["0", "1", "2", "9", "10", "01", "18446744073709551615", "18446744073709551616", "x", "*", "X", "a", ""]
PARTS = ["", "-", "-0", "-01", "-a", "-rc.1", "-1a", "-é", "+", "+b", "+01", "-a+b", "-a.", "-a..b", " ", "\\t", "x"]
OPERATORS = ["", "", "^", "~", "=", ">", ">=", "<", "<=", "==", "!", "=>", ">= ", " ^ ", "v"]
CFG = [
    "unix", "windows", "test", "debug_assertions", "proc_macro", "true", "false", "feature", "r#any", "r#true", "é", "a-b",
    "1a", 'target_os = "linux"', 'target_os=""', 'feature = "x"', 'true = "x"', 'r#false = "x"', "a = b", 'a = "b" c', "", " ",
    "	", "x y",
]
URLS = [
    "https://example.com/b", "http://example.com", "ssh://git@example.com/b", "git@example.com:b", "file:///b", "b", "../b",
    "/b", "", "https://", "https:example.com", "https://exa mple.com", "git+https://example.com/b",
    "sparse+https://example.com/", "mailto:a", "https://example.com/b#c", "https://[::1]/b", "https://[",
    "https://example.com:99999/", "https://example.com:80/", "a:b", "data:x", "HTTPS://EXAMPLE.COM/B", "https://1.2.3.4/b",
    "https://1.2.3.256/b", "https://é.com/b", "file://b", "//example.com/b",
]
VALUES = [
    "1", "0", "-1", "true", "false", '"x"', '""', "[]", '["x"]', "{}", "1.5", "2020-01-01", "[1]", "{ workspace = true }",
    '"1"', "3",
]
KEYS = {
    "package": [
        "authors", "description", "documentation", "readme", "homepage", "repository", "license", "license-file", "keywords",
        "categories", "links", "exclude", "include", "publish", "metadata", "default-run", "autolib", "autobins",
        "autoexamples", "autotests", "autobenches", "resolver", "rust-version", "build", "workspace", "edtion", "autor",
        "zebra", "license_file", "rust_version", "im-a-teapot",
    ],
    "lib": [
        "name", "path", "test", "doctest", "bench", "doc", "plugin", "proc-macro", "proc_macro", "harness", "edition",
        "crate-type", "crate_type", "required-features", "filename", "doc-scrape-examples", "crate-types", "zebra",
    ],
    "profile.dev": [
        "opt-level", "debug", "split-debuginfo", "strip", "debug-assertions", "overflow-checks", "lto", "panic", "incremental",
        "codegen-units", "rpath", "inherits", "package", "build-override", "opt_level", "dir-name", "rustflags", "zebra",
    ],
    "dependencies.b": [
        "version", "path", "git", "branch", "tag", "rev", "registry", "features", "optional", "default-features",
        "default_features", "package", "workspace", "public", "artifact", "lib", "target", "base", "zebra",
    ],
    "lints.rust.unused": [
        "level", "priority", "check-cfg", "zebra",
    ],
    "workspace": [
        "members", "default-members", "exclude", "resolver", "dependencies", "package", "metadata", "lints", "default_members",
    ],
    "workspace.package": [
        "version", "edition", "authors", "license", "readme", "publish", "rust-version", "name", "badges", "zebra",
    ],
}
TOP = [
    "dependencies", "dev-dependencies", "build-dependencies", "dev_dependencies", "features", "target", "patch", "replace",
    "profile", "badges", "lints", "hints", "workspace", "lib", "bin", "test", "example", "bench", "project", "net", "build",
    "alias", "env", "zebra", "dependancies", "cargo-features", "paths", "term", "Package",
]
TOOLS = ["rust", "clippy", "rustdoc", "cargo", "miri", "Rust", ""]
PROFILES = [
    "own", "dev", "release", "test", "bench", "doc", "debug", "Debug", "build", "check", "cargo", "cargo-x", "deps", "rust",
    "rustc", "root", "tmp", "package", "build-override", "target", "uninstall", "a b", "a.b", "é", "", "1", "-",
]
SPECS = [
    "*", "a", "b", "a@0.1.0", "a@0.1", "a:0.1.0", "a@", "@1", "a@^1", "a b", "https://example.com/a",
    "https://example.com/a#b@1.0.0", "https://example.com/a#1.0.0", "file:///a#1", "", "a@1.2.3.4", "a@x", "1a", "a#1",
]
PATTERNS = ["m", "m*", "*", "m/*", "a***", "**", "[", "[a-z]", "?", ".", "", "nope", "./m", "m/", "no*", "{m}"]
TYPES = ["lib", "rlib", "dylib", "cdylib", "staticlib", "proc-macro", "bin", "x", ""]
CARGO_FEATURES = [
    "strip", "edition2021", "metabuild", "publish-lockfile", "nope", "rust_version", "test-dummy-stable", "path-bases",
]
RUST_VERSIONS = ["1", "0", "2", "31", "56", "55", "84", "85", "30", "x", "01"]
DEPENDENCY_KEYS = {
    "version": '"0.1"', "path": '"b"', "git": '"https://example.com/b"', "branch": '"x"', "tag": '"x"', "rev": '"x"',
    "registry": '"crates-io"', "registry-index": '"https://example.com"', "optional": "true", "features": '["x"]',
    "package": '"b"', "lib": "true", "base": '"x"',
}
DEPENDENCY_TABLES = [
    "dependencies", "dependencies", "dev-dependencies", "build-dependencies", "workspace.dependencies", "patch.crates-io",
]
ELEMENTS = [
    "b", "x", "one", "two", "dep:b", "dep:x", "b/x", "b?/x", "dep:b/x", "b/x/y", "c/x", "/", "dep:", "b/", "?/x", "default",
    "one/x", "",
]
LEVELS = [
    '"warn"', '"Warn"', '"forbid"', "1", '{ level = "deny" }', "{ priority = 1 }", '{ level = "warn", priority = 200 }', "[]",
]
OVERRIDES = [
    "opt-level = 2", "panic = 'abort'", "lto = true", "rpath = true", "package = {}", "build-override = {}",
    "inherits = 'dev'", "x = 1",
]
REPLACEMENTS = ['{ path = "b" }', '{ git = "https://example.com/b" }', '{ path = "b", version = "1" }', '"1"', "{}"]
TARGET_LINES = [
    "", "", 'crate-type = ["lib"]\n', "crate-type = []\n", "proc-macro = true\n", 'edition = "2018"\n', 'edition = "x"\n',
]


class Made:
    """One package: its manifest and its other files."""

    def __init__(self, seed, number):
        self.random = Random(f"{seed} {number}")
        self.edition = self.random.choice(EDITIONS)
        self.head = HEAD.format(edition=self.edition)
        self.files = dict(FILES)
        way = self.random.choice(WAYS)
        self.manifest = way(self)

    def choice(self, things):
        return self.random.choice(things)

    def letters(self, most=4):
        return "".join(self.choice(LETTERS) for _ in range(self.random.randrange(most + 1)))

    def listed(self, things, most=3):
        """Some of these things as the items of an array."""
        return ", ".join(f'"{each}"' for each in self.some(things, most))

    def some(self, things, most=3):
        return [self.choice(things) for _ in range(self.random.randrange(most + 1))]

    # what is in question

    def version(self):
        parts = [self.choice(NUMBERS) for _ in range(self.choice([1, 2, 3, 3, 3, 3, 4]))]
        return self.head.replace('"0.1.0"', f'"{self.choice(["", "", "", " ", "v"])}{".".join(parts)}{self.choice(PARTS)}"')

    def rust_version(self):
        parts = [self.choice(RUST_VERSIONS) for _ in range(self.choice([1, 2, 2, 3, 4]))]
        after = self.choice(["", "", "", " ", "-a", "+b", ".", "\\t"])
        said = self.choice(["", "", "", " ", "^", "v"]) + ".".join(parts) + after
        return f'{self.head}rust-version = "{said}"\n'

    def package_name(self):
        return self.head.replace('"a"', f'"{self.letters()}"')

    def requirement(self):
        texts = []
        for _ in range(self.choice([1, 1, 1, 2, 3])):
            parts = [self.choice(NUMBERS) for _ in range(self.choice([1, 1, 2, 3, 3, 4]))]
            texts.append(self.choice(OPERATORS) + ".".join(parts) + self.choice(PARTS))
        return f'{self.head}[dependencies]\nb = "{self.choice([",", ", ", " ", "||"]).join(texts)}"\n'

    def dependency_name(self):
        if self.choice([True, False]):
            return f'{self.head}[dependencies]\nb = {{ version = "1", package = "{self.letters()}" }}\n'
        return f'{self.head}[{self.choice(["dependencies", "dev-dependencies"])}]\n"{self.letters()}" = "1"\n'

    def url(self):
        key = self.choice(["git", "git", "registry-index"])
        more = 'version = "1", ' if key == "registry-index" else ""
        return f'{self.head}[dependencies]\nb = {{ {more}{key} = "{self.choice(URLS)}" }}\n'

    def registry(self):
        return f'{self.head}[dependencies]\nb = {{ version = "1", registry = "{self.letters()}" }}\n'

    def sources(self):
        chosen = dict.fromkeys(self.some(list(DEPENDENCY_KEYS), 5))
        self.files |= B
        pairs = ", ".join(f"{key} = {DEPENDENCY_KEYS[key]}" for key in chosen)
        return f"{self.head}[{self.choice(DEPENDENCY_TABLES)}]\nb = {{ {pairs} }}\n"

    def platform(self):
        def expression(deep):
            way = self.random.randrange(8 if deep else 4)
            if way < 4:
                return self.choice(CFG)
            name = self.choice(["all", "any", "not", "not", "x"])
            parts = [expression(deep - 1) for _ in range(1 if name == "not" else self.random.randrange(4))]
            return f'{name}({self.choice([", ", ",", " , "]).join(parts)}{self.choice(["", "", ","])})'

        others = [f"cfg ({expression(1)})", expression(1), f" cfg({expression(1)})", self.letters()]
        said = self.choice([f"cfg({expression(2)})"] * 8 + others)
        key = f"'{said}'" if "'" not in said and "\\" not in said else '"' + said.replace('"', '\\"') + '"'
        return f"{self.head}[target.{key}.dependencies]\n"

    def feature_name(self):
        return f'{self.head}[features]\n"{self.letters()}" = []\n'

    def feature(self):
        self.files |= B
        table = self.choice(["dependencies", "dependencies", "dev-dependencies", "target.'cfg(unix)'.dependencies"])
        optional = self.choice([", optional = true", ", optional = true", ""]) * (table != "dev-dependencies")
        lists = [f"{name} = [{self.listed(ELEMENTS)}]\n" for name in ("one", "two")]
        own = self.choice(["", "", "b = []\n", 'b = ["dep:b"]\n', 'default = ["one"]\n'])
        return f'{self.head}[features]\n{"".join(lists)}{own}[{table}]\nb = {{ path = "b"{optional} }}\n'

    def kind(self):
        table = self.choice(list(KEYS))
        key, value = self.choice(KEYS[table]), self.choice(VALUES)
        bases = {"dependencies.b": 'path = "b"\n' * (key != "path"), "lints.rust.unused": 'level = "warn"\n' * (key != "level")}
        base = bases.get(table, "")
        if table == "dependencies.b":
            self.files |= B
        if table == "package":
            return self.head + f"{key} = {value}\n"
        return f"{self.head}[{table}]\n{base}{key} = {value}\n"

    def top(self):
        return f"{self.choice(TOP)} = {self.choice(VALUES)}\n{self.head}"

    def table(self):
        return f"{self.head}[{self.choice(TOP)}]\n{self.choice(['', '', 'x = 1', 'x = []', 'name = 1'])}\n"

    def lint(self):
        value = self.choice(LEVELS)
        name = self.choice(["unused", "unsafe_code", '"clippy::all"', '"rust::x"', '"a::b"', '"a b"', '""'])
        return f'{self.head}[{self.choice(["lints", "workspace.lints"])}."{self.choice(TOOLS)}"]\n{name} = {value}\n'

    def profile(self):
        line = self.choice(["", 'inherits = "dev"\n', 'inherits = "x"\n', "opt-level = 1\n"])
        return f'{self.head}[profile."{self.choice(PROFILES)}"]\n{line}'

    def override(self):
        where = self.choice([f'package."{self.choice(SPECS)}"', f'package."{self.choice(SPECS)}"', "build-override"])
        return f"{self.head}[profile.dev.{where}]\n{self.choice(OVERRIDES)}\n"

    def inherits(self):
        names = ["dev", "release", "debug", "p", "q", "r", "x", "test"]
        return self.head + "".join(f'[profile.{name}]\ninherits = "{self.choice(names)}"\n' for name in "pqr")

    def replace(self):
        self.files |= B
        key = self.choice([*SPECS, "b:0.1.0", "b@0.1.0"])
        return f'{self.head}[replace]\n"{key}" = {self.choice(REPLACEMENTS)}\n'

    def target(self):
        kind = self.choice(["bin", "bin", "test", "example", "bench"])
        lines = [f'[[{kind}]]\nname = "{self.choice([self.letters(), "x", "x", "deps", "build"])}"\n']
        lines.append(self.choice(['path = "t.rs"\n', 'path = "t.rs"\n', 'path = "nope.rs"\n', 'path = "src"\n', ""]))
        lines.append(self.choice(TARGET_LINES))
        return self.head + "".join(lines)

    def types(self):
        key = self.choice(["crate-type", "crate-type", "crate_type"])
        macro = self.choice(["", "", "proc-macro = true\n", "proc_macro = false\n"])
        return f"{self.head}[lib]\n{key} = [{self.listed(TYPES)}]\n{macro}"

    def required(self):
        values = ["one", "two", "dep:b", "b", "b/x", "b?/x", "c/x", ""]
        self.files |= B
        said = self.listed(values)
        more = '[features]\none = []\n[dependencies]\nb = { path = "b", optional = true }\n'
        return f'{self.head}[[example]]\nname = "t"\npath = "t.rs"\nrequired-features = [{said}]\n{more}'

    def members(self):
        self.files |= {"m/Cargo.toml": HEAD.format(edition="2021").replace('"a"', '"m"').encode(), "m/src/lib.rs": b""}
        said = ", ".join(f'"{each}"' for each in ["m", *self.some(PATTERNS, 2)])
        default = self.choice(["", "", f'default-members = ["{self.choice(PATTERNS)}"]\n'])
        return f"{self.head}[workspace]\nmembers = [{said}]\n{default}"

    def cargo_features(self):
        return f"cargo-features = [{self.listed(CARGO_FEATURES)}]\n{self.head}"

    def two(self):
        """Two parts in question at once."""
        first, second = self.choice(APART), self.choice(APART)
        lines = second(self).removeprefix(self.head)
        text = first(self)
        return text if first is second else text + lines

    def right(self):
        """Nothing in question: keys and tables with right values."""
        return self.head + "".join(self.random.sample(RIGHT_KEYS, 3)) + "".join(self.random.sample(RIGHT_TABLES, 4))


RIGHT_KEYS = [
    'description = "x"\n', 'authors = ["x"]\n', 'keywords = ["x"]\n', 'license = "MIT"\n', "readme = false\n",
    "publish = false\n", 'homepage = "https://example.com"\n', 'repository = "https://example.com"\n', "autobins = true\n",
    "build = false\n", "include = []\n",
]
RIGHT_TABLES = [
    "[lib]\ndoctest = false\n", '[[test]]\nname = "t"\npath = "t.rs"\n', '[features]\ndefault = ["one"]\none = []\n',
    "[profile.release]\nlto = true\n", '[profile.own]\ninherits = "dev"\nopt-level = 2\n',
    '[lints.rust]\nunsafe_code = "forbid"\n', '[badges.maintenance]\nstatus = "as-is"\n', "[target.'cfg(unix)'.dependencies]\n",
    "[build-dependencies]\n", "[dev-dependencies]\n", "[package.metadata.x]\ny = 1\n", "[patch.crates-io]\n",
]
WAYS = [
    Made.version, Made.rust_version, Made.package_name, Made.requirement, Made.requirement, Made.dependency_name, Made.url,
    Made.registry, Made.sources, Made.sources, Made.platform, Made.platform, Made.feature_name, Made.feature, Made.feature,
    Made.kind, Made.kind, Made.kind, Made.top, Made.table, Made.lint, Made.profile, Made.override, Made.inherits, Made.replace,
    Made.target, Made.types, Made.required, Made.members, Made.cargo_features, Made.two, Made.right,
]
# those whose lines stand in tables that no other one of them has
APART = [Made.feature_name, Made.requirement, Made.platform, Made.lint, Made.target, Made.profile]


def packages(count, seed):
    """The files of this many packages, by their names."""
    made = {}
    for number in range(count):
        one = Made(seed, number)
        made[f"{number}"] = {"Cargo.toml": one.manifest.encode("utf-8"), **one.files}
    return made
