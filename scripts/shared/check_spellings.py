"""Spellings that Cargo ignores, or that are of an earlier time, planted in manifests: each is the only one of its key, so the
suggestion to rename it gives back the text before."""
import re
import tomllib

# where a key stands, as a path of names with `*` for any, and its spellings: the one that Cargo knows, and the other one
SECTIONS = ("dev-dependencies", "build-dependencies")
DEPENDENCIES = ("dependencies", *SECTIONS)
OF_DOCUMENT = {(name, name.replace("-", "_")) for name in SECTIONS}
OF_DEPENDENCY = {("default-features", "default_features")}
OF_TARGET = {("crate-type", "crate_type"), ("proc-macro", "proc_macro"), ("required-features", "required_features")}
OF_PROFILE = {(name, name.replace("-", "_")) for name in ("opt-level", "debug-assertions", "codegen-units", "overflow-checks")}
OF_WORKSPACE = {("default-members", "default_members")}
PLACES = [
    ("", OF_DOCUMENT), ("target.*", OF_DOCUMENT), ("lib", OF_TARGET), ("workspace", OF_WORKSPACE),
    ("profile.*", OF_PROFILE), ("profile.*.build-override", OF_PROFILE), ("profile.*.package.*", OF_PROFILE),
    *((f"{kind}.*", OF_TARGET) for kind in ("bin", "example", "test", "bench")),
    *((f"{table}.*", OF_DEPENDENCY) for table in (*DEPENDENCIES, "workspace.dependencies")),
    *((f"target.*.{table}.*", OF_DEPENDENCY) for table in DEPENDENCIES),
]


def tables_at(value, path):
    """The tables at a path of names, `*` being any key of a table or any item of a list."""
    if not path:
        return [value] if isinstance(value, dict) else []
    if path[0] == "*":
        inner = value.values() if isinstance(value, dict) else value if isinstance(value, list) else ()
    else:
        inner = [value[path[0]]] if isinstance(value, dict) and path[0] in value else []
    return [table for each in inner for table in tables_at(each, path[1:])]


def renamed(table, known, written):
    """A table with one key renamed."""
    return {written if key == known else key: value for key, value in table.items()}


def is_so(before, after, known, written):
    """Whether the second document is the first with the key renamed in one table where the key means something."""
    for place, spellings in PLACES:
        path = place.split(".") if place else []
        if (known, written) not in spellings:
            continue
        for old, new in zip(tables_at(before, path), tables_at(after, path)):
            if known in old and written not in old and renamed(old, known, written) == new:
                return True
    return False


def with_spelling(text, found, written):
    """The text with another spelling at a place."""
    return text[:found.start()] + written + text[found.end():]


def plantings(text):
    """A manifest with each other spelling that can be planted in it, by itself."""
    before = tomllib.loads(text)
    pairs = {pair for _, spellings in PLACES for pair in spellings}
    for known, written in sorted(pairs):
        for found in re.finditer(rf"(?<![\w.\"'-]){known}(?![\w\"'-])", text):
            changed = with_spelling(text, found, written)
            try:
                after = tomllib.loads(changed)
            except tomllib.TOMLDecodeError:
                continue
            if is_so(before, after, known, written):
                yield changed
