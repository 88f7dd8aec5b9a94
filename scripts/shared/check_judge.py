"""Whether what manifest_check reports agrees with what Cargo says: errors where it refuses, warnings where it warns."""
import re
from typing import NamedTuple

from .check_cargo import OF_HOST


class Difference(NamedTuple):
    """An intended difference: its name, why it is intended, and the codes that are reported and Cargo does not refuse, in a
    manifest whose text has this pattern; or, where there are no codes, the words of Cargo for which nothing is reported."""

    name: str
    reason: str
    codes: tuple = ()
    pattern: str = ""
    words: str = ""


# what Cargo warns of, and the codes of which one has to be reported then
WARNED = [
    (r"unused manifest key `lints\.", ("unknown-lint-tool", "unstable-lint-tool")),
    (r"unused manifest key: lints\.", ("unknown-lint-tool", "unknown-key", "misspelled-key", "ignored-lint-key")),
    (r"unrecognized lint tool", ("unknown-lint-tool",)),
    # (of a whole table that is not read)
    (r"unused manifest key: project\.", ("old-spelling",)),
    (
        r"unused manifest key: ",
        (
            "unknown-key", "misspelled-key", "ignored-spelling", "configuration-key", "ignored-lint-key",
            "ignored-when-inherited", "inherited-patch",
        ),
    ),
    (r"no edition set|no `edition` set|edition.* defaulting to", ("missing-edition",)),
    (r"only one of `license` or `license-file`", ("license-and-license-file",)),
    (r"is redundant with", ("two-spellings", "old-spelling", "proc-macro-crate-type")),
    (r"is deprecated in favor of|`\[project\]` is deprecated", ("old-spelling",)),
    (r"found to be present in multiple build targets", ("shared-target-file",)),
    (r"An explicit \[\[", ("undeclared-target-files",)),
    (r"`edition` is set on", ("edition-of-target",)),
    (r"`default-features` is ignored for", ("ignored-default-features",)),
    (r"`default_features` is ", ("old-spelling", "two-spellings")),
    (r"ignoring `public` on|ignoring '?hint", ("unstable-key",)),
    (r"URL fragment", ("fragment-in-url",)),
    (r"includes semver metadata", ("metadata-in-requirement",)),
    (r"`panic` setting is ignored for", ("panic-of-tests",)),
    (r"profile `doc` is deprecated", ("doc-profile",)),
    (r"defines a feature named `default-features`", ("default-features-feature",)),
    (r"in required-features of target", ("unknown-required-feature",)),
    (r"the cargo feature `.*` has been stabilized", ("stable-cargo-feature",)),
    (r"for the non root package will be ignored", ("ignored-in-member",)),
    (r"virtual workspace defaulting to", ("missing-resolver",)),
    (r"unused field in patch for", ("ignored-in-patch",)),
    (r"[Ff]ound `.*` in `target\.", ("never-true-cfg",)),
    (r"is deprecated as `(?:true|false)` is a keyword", ("boolean-as-cfg-key",)),
    (r"proc-macro", ("proc-macro-crate-type",)),
]

DIFFERENCES = [
    Difference(
        "a setting of a profile that the compiler refuses, where nothing is compiled with it",
        "Cargo passes such a value on to rustc, which refuses it as soon as something is built with the profile, or linked: a "
        "check with another profile does not show it",
        codes=("invalid-lto", "opt-level-too-high", "no-codegen-units"),
    ),
    Difference(
        "an array in place of a profile, an override or `hints`",
        "Cargo's reader takes an array for these tables, with its items as the fields in their order, by accident",
        codes=("wrong-kind",),
        pattern=r"(?m)^(?:hints|build-override|profile[.\w]*|release|dev|test|bench|doc) = \[|^\[\[(?:hints|profile[.\w]*)\]\]",
    ),
    Difference(
        "a date in place of a table",
        "Cargo's reader takes a date for a table with one key, by accident",
        codes=("wrong-kind",),
        pattern=r"= \d{4}-\d\d-\d\d",
    ),
    Difference(
        "a fault of what a workspace has for its members, and no member inherits",
        "Cargo looks at it as soon as a member inherits it",
        codes=(
            "artifact-without-artifact", "base-without-path", "conflicting-sources", "revision-without-git", "several-revisions",
            "unknown-word",
        ),
        pattern=r"(?m)^\[workspace\.(?:dependencies|package)\]",
    ),
    Difference(
        "files of binaries, benches and libraries in the old places of the edition 2015",
        "Cargo warns that it takes them by mistake; they are found or reported as absent by other rules here",
        words=r"was erroneously implicitly accepted",
    ),
    Difference(
        "names of packages with `::`, editions to come, several build scripts, an empty `base`",
        "they rest on unstable features of Cargo, so that another Cargo may take them",
        words=r"feature `(?:open-namespaces|unstable-editions|multiple-build-scripts)` is required|path base name cannot be empty",
    ),
    Difference(
        "a pattern of `default-members` that leads to no member",
        "it is not looked up where such a pattern leads; without `*`, `?` and `[` the same is an error",
        words=r"package `[^`]*` is listed in default-members but is not a member",
    ),
]


def differs(answer, told, text):
    """How what is reported disagrees with what Cargo says of the manifest with this text, or None; and the name of the intended
    difference, if it is one."""
    errors = {each.code for each in told if each.level == "error"}
    if answer.read and not errors:
        if OF_HOST.search(answer.read):
            return None, None
        return by_words(answer.read, f"no error is reported, and Cargo refuses it: {shortened(answer.read)}")
    if errors and not (answer.read or answer.built or answer.is_open):
        codes = ", ".join(sorted(errors))
        return by_codes(errors, text, f"{codes}: reported, and Cargo neither refuses to read it nor to build it")
    return differs_in_warnings(answer.warned, {each.code for each in told})


def differs_in_warnings(warned, codes):
    """How what is reported disagrees with what Cargo warns of."""
    for warning in re.split(r"^(?=warning: )", warned, flags=re.M)[1:]:
        due = next((due for words, due in WARNED if re.search(words, warning)), ())
        if not codes.intersection(due):
            fault = f"none of {', '.join(due) or 'the codes'} is reported, and Cargo warns: {shortened(warning)}"
            return by_words(warning, fault)
    return None, None


def by_words(said, fault):
    """A difference, or the name of the intended one that has these words of Cargo."""
    name = next((each.name for each in DIFFERENCES if each.words and re.search(each.words, said)), None)
    return (None, name) if name else (fault, None)


def by_codes(errors, text, fault):
    """A difference, or the name of the intended one that has all these codes, and a pattern of the text."""
    fitting = (each.name for each in DIFFERENCES if errors <= set(each.codes) and re.search(each.pattern, text))
    name = next(fitting, None)
    return (None, name) if name else (fault, None)


def shortened(said):
    return " ".join(said.split())[:300]
