"""What scripts/try/edits knows of a text in TOML without the library: its document by Python's tomllib, its comments, the
tables that its headers open, and what a document is after edits."""
import copy
import re
import tomllib

from .runs import with_kinds

# a text between quotes, on more lines or on one, or a part of such a key
QUOTED = (r'"""(?:\\.|[^\\])*?"{3,5}', r"'''.*?'{3,5}", r'"(?:\\.|[^"\\\n])*"', r"'[^'\n]*'")
KEY = "|".join([*QUOTED[2:], r"[^]\n#\"'=,]"])
# a comment, or what may be a header, which has a line of its own; nothing begins between quotes
TOKEN = re.compile(
    "|".join([
        *QUOTED, "(?P<comment>#[^\n]*)",
        rf"(?:(?<=\n)|(?<![^\ufeff]))[ \t]*(?P<header>\[\[?(?:{KEY})+\]\]?)(?=[ \t]*(?:\r?\n|#|$))",
    ]), re.S,
)


def document(text):
    """The document of a text, or None where tomllib reads none: it knows less than the library."""
    try:
        return tomllib.loads(text.removeprefix("\ufeff"))
    except (ValueError, RecursionError):
        return None


def value_of(toml):
    """The value that a text is."""
    return tomllib.loads(f"value = {toml}")["value"]


def comments(data):
    """The comments of a text, each with the offset of its first byte."""
    text = data.decode("utf-8")
    found = [(each.start(), each["comment"].rstrip("\r")) for each in TOKEN.finditer(text) if each["comment"]]
    return [(len(text[:at].encode("utf-8")), comment) for at, comment in found]


def keys_of(header):
    """The keys of a header."""
    table, keys = tomllib.loads(header), []
    while table:
        ((key, table),) = table.items()
        keys.append(key)
        table = table[0] if isinstance(table, list) else table
    return keys


def value_at(held, path):
    """The value at a path of a document; None where there is none."""
    for step in path:
        if isinstance(held, list) and isinstance(step, int):
            held = held[step] if step < len(held) else None
        else:
            held = held.get(step) if isinstance(held, dict) else None
    return held


def opened(text, held):
    """The paths of the tables that headers open, and that of the whole table."""
    counts, paths = {}, [()]
    for header in filter(None, (found["header"] for found in TOKEN.finditer(text))):
        keys, path = keys_of(header), ()
        for number, key in enumerate(keys, 1):
            path += (key,)
            if header.startswith("[[") and number == len(keys):
                counts[path] = counts.get(path, 0) + 1
            if path in counts:
                path += (counts[path] - 1,)
        # (a line of an array may look like a header)
        if isinstance(value_at(held, path), dict):
            paths.append(path)
    return paths


def leaves(held, path=()):
    """The paths of all values in a document that are written as values: no tables, and no arrays of them."""
    for step, inner in held.items() if isinstance(held, dict) else enumerate(held):
        if not isinstance(inner, dict) and not (isinstance(inner, list) and inner and isinstance(inner[0], dict)):
            yield (*path, step)
        if isinstance(inner, (dict, list)):
            yield from leaves(inner, (*path, step))


def inner_paths(held, path=()):
    """The paths of all that is in a document."""
    for step, inner in held.items() if isinstance(held, dict) else enumerate(held):
        yield (*path, step)
        if isinstance(inner, (dict, list)):
            yield from inner_paths(inner, (*path, step))


def after(held, edits):
    """The document after edits, of which none is about a value in what another one is about: with the kinds of its values."""
    changed = copy.deepcopy(held)
    # (indexes count in the old document)
    for edit in sorted(edits, key=lambda edit: (edit.kind == "remove", [-step for step in edit.path if isinstance(step, int)])):
        *above, last = edit.path
        holder = value_at(changed, above)
        if edit.kind == "remove":
            del holder[last]
        elif edit.kind == "rename":
            holder[edit.text] = holder.pop(last)
        elif edit.kind == "insert" and isinstance(holder, list):
            holder.append(value_of(edit.text))
        else:
            holder[last] = value_of(edit.text)
    return with_kinds(changed)


def replaced(data, replacements):
    """The bytes with these replacements."""
    for each in reversed(replacements):
        data = data[: each.start] + each.text.encode("utf-8") + data[each.end :]
    return data
