"""The forms of crates/manifest_schema/specs, as scripts/keys reads them: their rows, each with its comment; the words of the
choices; and what the worked records have."""
import itertools
import re
from dataclasses import dataclass

SPECS = "crates/manifest_schema/specs"
# of each form: its section in docs/KEYS.md, and its record, which is also a type of the code and of the Rust crate
FORMS = {
    "inherited_rows": ("Dependency of the workspace", "InheritedDependencyDetail"),
    "detailed_rows": ("Dependency in detail", "DependencyDetail"),
    "lint_rows": ("Lint in detail", "LintConfig"),
    "product_rows": ("Target", "Product"),
    "badge_rows": ("Badge", "Badge"),
    "maintenance_rows": ("Maintenance", "Maintenance"),
    "badges_rows": ("Badges", "Badges"),
    "profile_rows": ("Profile", "Profile"),
    "profiles_rows": ("Profiles", "Profiles"),
    "lints_rows": ("Lints", "MaybeInheritedLintsSet"),
    "platform_rows": ("Platform", "Target"),
    "package_rows": ("Package", "Package"),
    "workspace_package_rows": ("Package of the workspace", "WorkspacePackage"),
    "workspace_rows": ("Workspace", "Workspace"),
    "manifest_rows": ("Manifest", "Manifest"),
}
# how a value of a default is written in a manifest
VALUES = {"true": "true", "false": "false", "no_status": '"none"'}


@dataclass
class Row:
    """A row of a form: its field, its key, whether that has a second spelling, the words of its kind, its need with what that
    is given, and its comment: what the field is, and the place in Cargo's reference."""

    field: str
    is_mark: bool  # (the mark of what is inherited: its record has no such field)
    key: str | None  # (None: any other key)
    is_spelled_twice: bool
    kind: str | list
    need: str
    absent: str | list | None
    skipped: str | None
    about: str
    reference: str

    @property
    def second(self):
        return self.key.replace("-", "_") if self.is_spelled_twice else None

    @property
    def is_option(self):
        return self.need in ("optional", "lenient_optional")


@dataclass
class Form:
    """A form: its name, its section in docs/KEYS.md, its record, the kinds that it takes, and its rows."""

    name: str
    section: str
    record: str
    kinds: list
    rows: list

    @property
    def macro(self):
        """The macro that has the list of its rows in the code."""
        return self.name.removesuffix("_rows")

    @property
    def is_open(self):
        """Whether any other key is an entry of one more field."""
        return self.rows[-1].key is None


def parse(text):
    """The words of an expression, as a list with a list for each parenthesis."""
    stack = [[]]
    for word in re.findall(r'"[^"]*"|[()]|[^\s()]+', text):
        if word == "(":
            stack.append([])
        elif word == ")":
            inner = stack.pop()
            stack[-1].append(inner)
        else:
            stack[-1].append(word.strip("«»"))
    return stack[0]


def definitions(text, pattern):
    """Each definition whose name has this pattern: its name, what it takes, and what stands after its `=` up to an empty line."""
    return re.findall(rf"^({pattern})((?: \w+)*) =((?:.*\n)(?:\S? .*\n)*)", text, re.M)


def value(words, kind="text"):
    """A default, as it stands in a manifest."""
    match words:
        case "[]":
            return "{}" if kind[0] == "map_of" else "[]"
        case str():
            return VALUES[words]
        case ["pos", number]:
            return number
        case ["codes", text]:
            return text
        case ["record", "{", field, "=", word, "}"]:
            return f"{{ {field} = {VALUES[word]} }}"
    raise ValueError(f"no default is known by {words}")


def row(words, about):
    """A row, of its words and its comment."""
    *sentences, reference = about
    said = " ".join(sentences), reference.strip("()")
    match words:
        case ["others", [_, _, place], kind]:
            return Row(place.partition(".")[2].strip("«»"), False, None, False, kind, "others", None, None, *said)
        case ["row", [_, _, place], [spellings, ["codes", key]], [need, kind, *more]]:
            field, key = place.partition(".")[2].strip("«»"), key[1:-1]
            absent, skipped = (*more, None, None)[:2]
            return Row(field or key, not field, key, spellings == "also_underscored", kind, need, absent, skipped, *said)
    raise ValueError(f"no row is known by {words}")


def rows_of(body):
    """The rows of a form, of the text of its definition."""
    about, lines = [], []
    for line in [*body.split("\n"), "⨾ no_more"]:
        line = line.strip()
        if line.startswith(("-- ", "⨾")) and lines:
            yield row(parse(" ".join(lines).removeprefix("⨾")), about)
            about, lines = [], []
        if line.startswith("-- "):
            about.append(line[3:])
        elif line and line != "⨾ no_more":
            lines.append(line)


def forms(top):
    """Each form, in the order of the definitions."""
    for file in ("PartForms.antt", "ManifestForms.antt"):
        text = (top / SPECS / file).read_text(encoding="utf-8")
        for name, taken, body in definitions(text, r"\w+_rows"):
            section, record = FORMS.get(name, (name, name))
            yield Form(name, section, record, taken.split(), list(rows_of(body)))


def choices(top):
    """The words of each choice: texts between quotes, and booleans."""
    text = (top / SPECS / "Choices.antt").read_text(encoding="utf-8")
    for name, _, body in definitions(text, r"\w+_words"):
        words = re.findall(r'codes ("[^"]*")', body)
        if name == "strip_words":
            words += re.findall(r"^strip_value \w+ = boolean (\w+)", text, re.M)
        yield name.removesuffix("_words"), words


def neighbours(items):
    """Each item with the one before it, None before the first."""
    before, after = itertools.tee(items)
    return zip(itertools.chain([None], before), after)
