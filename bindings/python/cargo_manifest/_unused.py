"""A key that nothing reads, and what Cargo makes of it."""
from __future__ import annotations

from collections.abc import Iterable
from typing import Any, Literal, NamedTuple, Optional

from ._expected import expected_at
from ._paths import KeyPath, Link, Step, link_of, path_of, text_of
from ._places import Located

Support = Literal["stable", "deprecated", "unstable", "ignored", "refused"]

_SAID: dict[Support, str] = {
    "stable": "Cargo reads it",
    "deprecated": "Cargo reads it, but it is deprecated",
    "unstable": "Cargo reads it with an unstable feature",
    "ignored": "Cargo ignores it",
    "refused": "Cargo refuses it",
}


class CargoKey(NamedTuple):
    """What Cargo makes of a key that no manifest holds here; `docs/CARGO.md` of the repository has the table of them.

    - `support`: `"stable"`, or `"deprecated"`: it reads the key; `"unstable"`: it does with an unstable feature, and else
      refuses the key or warns of it; `"ignored"`: it reads it no longer; `"refused"`: it always refuses it.
    - `since`: the first version of Cargo that knows it, as `"1.80"`, where that is known.
    """

    support: Support
    since: Optional[str] = None

    def __str__(self) -> str:
        return _SAID[self.support] + (f" since {self.since}" if self.since else "")


# by the table, the last steps to it where not each such table has the key, and the key
KNOWN: dict[tuple[str, str, str], CargoKey] = {
    ("Manifest", "", "project"): CargoKey("deprecated"),
    ("Manifest", "", "replace"): CargoKey("deprecated"),
    ("Manifest", "", "hints"): CargoKey("stable", "1.90"),
    ("Package", "", "cargo-features"): CargoKey("refused"),
    ("Package", "", "metabuild"): CargoKey("unstable"),
    ("Package", "", "default-target"): CargoKey("unstable"),
    ("Package", "", "forced-target"): CargoKey("unstable"),
    ("Package", "", "im-a-teapot"): CargoKey("unstable"),
    ("Package of the workspace", "", "badges"): CargoKey("ignored", "1.80"),
    ("Dependency in detail", "", "public"): CargoKey("unstable"),
    ("Dependency in detail", "", "artifact"): CargoKey("unstable"),
    ("Dependency in detail", "", "lib"): CargoKey("unstable"),
    ("Dependency in detail", "", "target"): CargoKey("unstable"),
    ("Dependency in detail", "", "base"): CargoKey("unstable"),
    ("Target", "", "doc-scrape-examples"): CargoKey("stable", "1.67"),
    ("Target", "", "filename"): CargoKey("unstable"),
    ("Profile", "", "hint-mostly-unused"): CargoKey("unstable"),
    ("Profile", "", "codegen-backend"): CargoKey("unstable"),
    ("Profile", "", "rustflags"): CargoKey("unstable"),
    ("Profile", "", "trim-paths"): CargoKey("unstable"),
    ("Profile", "", "dir-name"): CargoKey("refused"),
    ("Lint in detail", "rust.unexpected_cfgs", "check-cfg"): CargoKey("stable", "1.80"),
}


def _in_cargo(path: KeyPath) -> Optional[CargoKey]:
    """What Cargo makes of a key that nothing reads."""
    *table, key = path
    expected = expected_at(tuple(table))
    form = None if expected is None else expected.form
    within = text_of(tuple(table[-2:]))
    return KNOWN.get((str(form), "", str(key))) or KNOWN.get((str(form), within, str(key)))


class UnusedKey(Located):
    """A key that nothing reads: it may be misspelled, or one that only Cargo knows. Its text is that of Cargo's warning.

    - `path`: the keys and indexes that lead to it, as `("package", "edtion")`. The tuple is made each time.
    - `in_cargo`: a `CargoKey`, if Cargo knows it; else None.
    - `span`, `key_span`, `header_span`, `line`, `column`: where it stands, as a `Fault` has them.

    >>> key = UnusedKey(("lints", "rust", "unexpected_cfgs", "check-cfg"))
    >>> print(key)
    unused manifest key: lints.rust.unexpected_cfgs.check-cfg (Cargo reads it since 1.80)
    >>> key.in_cargo.since, UnusedKey(("package", "edtion")).in_cargo
    ('1.80', None)
    """

    __slots__ = ("_link",)
    _link: Optional[Link]

    def __init__(self, path: Iterable[Step]) -> None:
        self._link = link_of(path)
        self._place = b""

    @classmethod
    def _of(cls, link: Optional[Link], place: bytes) -> UnusedKey:
        """The key of a link, whose path is not made, at a place."""
        key = cls.__new__(cls)
        key._link, key._place = link, place
        return key

    @property
    def path(self) -> KeyPath:
        return path_of(self._link)

    @property
    def in_cargo(self) -> Optional[CargoKey]:
        return _in_cargo(self.path)

    def __eq__(self, other: object) -> bool:
        if not isinstance(other, UnusedKey):
            return NotImplemented
        return self.path == other.path

    def __hash__(self) -> int:
        return hash(self.path)

    def __str__(self) -> str:
        known = self.in_cargo
        return f"unused manifest key: {text_of(self.path)}" + (f" ({known})" if known else "")

    def __repr__(self) -> str:
        return f"UnusedKey(path={self.path!r})"

    def __reduce__(self) -> tuple[Any, ...]:
        return type(self), (self.path,), (None, {"_place": self._place})
