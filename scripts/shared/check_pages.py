"""The sections of docs/CHECKS.md, one for each code, with their examples; and the text of each for a terminal.

An example is a block of TOML. The word `toml` after its opening fence is followed by `told` or `mended`, and then by words that
only scripts read: the file, where it is not Cargo.toml; `escaped`, where the text has escapes of bytes; `with` and the empty
files that are there as well, in place of src/lib.rs; and options of the program. Blocks of one kind in a section are the files
of one example.
"""
import re

from .check_cases import Case, unescaped
from .check_codes import PAGE

SECTION = re.compile(r"^### `(?P<code>[a-z0-9-]+)`\n(?P<text>.*?)(?=^###? |\Z)", re.M | re.S)
BLOCK = re.compile(r"^```toml (?P<words>(?:told|mended)[^\n]*)\n(?P<text>.*?)^```$", re.M | re.S)
FENCE = re.compile(r"^```[^\n]*\n(.*?)^```$", re.M | re.S)
TURNING = re.compile("[\u202a-\u202e\u2066-\u2069]")
LINK = re.compile(r"\[([^\]]*)\]\(([^)]*)\)")


def sections():
    """The text of each section, by its code, in the order of the page."""
    return {found["code"]: found["text"].strip("\n") for found in SECTION.finditer(PAGE.read_text(encoding="utf-8"))}


def words_of(words):
    """What the words after `toml` say: the kind, the file, whether it has escapes, the empty files, and the options."""
    kind, *rest = words.split()
    file, is_escaped, others, options = "Cargo.toml", False, [], []
    while rest:
        word = rest.pop(0)
        if word == "escaped":
            is_escaped = True
        elif word == "with":
            while rest and not rest[0].startswith("--"):
                others.append(rest.pop(0))
        elif word.startswith("--"):
            options += [word, rest.pop(0)] if word == "--config" else [word]
        else:
            file = word
    return kind, file, is_escaped, others, tuple(options)


class Example(Case):
    """An example as a case, of which only its own code is compared."""

    @property
    def is_told(self):
        """Whether its code has to be reported."""
        return self.name == "told"


def example_of(code, kind, blocks):
    """The example of this kind among the blocks of a section."""
    files, options = {}, ()
    for words, text in blocks:
        its_kind, file, is_escaped, others, more = words_of(words)
        if its_kind == kind:
            files[file] = unescaped(text.rstrip("\n").replace("\n", "\\n")) if is_escaped else text.encode("utf-8")
            files |= {other: b"fn main() {}\n" if other.endswith(("main.rs", "build.rs")) else b"" for other in others}
            options = options or more
    if not files:
        raise ValueError(f"docs/CHECKS.md: {code} has no example that is {kind}")
    if len(files) == 1:
        files["src/lib.rs"] = b""
    return Example(f"docs/CHECKS.md: {code}", kind, code, "", "", (), options, files, ())


def examples():
    """The two examples of each code."""
    for code, text in sections().items():
        blocks = [(found["words"], found["text"]) for found in BLOCK.finditer(text)]
        for kind in ("told", "mended"):
            yield example_of(code, kind, blocks)


def plain(code, text):
    """A section as plain text: code by four more spaces, and each link with where it leads."""
    parts, end = [], 0
    for found in FENCE.finditer(text):
        lines = found[1].rstrip("\n").split("\n")
        parts += [plain_words(text[end:found.start()]), "\n".join(f"    {line}".rstrip() for line in lines)]
        end = found.end()
    return f"{code}\n\n" + shown("".join([*parts, plain_words(text[end:])]).strip("\n")) + "\n"


def plain_words(text):
    """Words without marks, but for the backquotes around names."""
    text = LINK.sub(lambda link: link[1] if link[2].startswith("#") else f"{link[1]} <{link[2]}>", text)
    return text.replace("`` ", "").replace(" ``", "").replace("**", "")


def shown(text):
    """A text whose characters that turn its direction are named, so that no terminal turns it."""
    return TURNING.sub(lambda found: f"<U+{ord(found[0]):X}>", text)
