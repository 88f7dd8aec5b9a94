"""What the folders of a manifest hold, gathered before the call."""
from __future__ import annotations

import contextlib
import ctypes
import errno
import os
from collections.abc import Iterable, Mapping
from typing import Any, Optional, Union

from ._library import Bytes, Folder
from ._numbers import NOT_FOUND, OTHER_FAULT, OUT_OF_MEMORY

Fault = Union[OSError, MemoryError]
Folders = Union[str, os.PathLike[str], Mapping[str, Union[Iterable[str], Fault]]]

Listed = Union[list[bytes], Fault]

_TOP = b"."
_SOURCES = b"src"
_TARGETS = (b"src/bin", b"examples", b"tests", b"benches")


def _number_of(fault: Fault) -> int:
    """The number that the library has for a fault."""
    if isinstance(fault, FileNotFoundError):
        return NOT_FOUND
    if isinstance(fault, MemoryError) or fault.errno == errno.ENOMEM:
        return OUT_OF_MEMORY
    return OTHER_FAULT


def _encoded(text: str, what: str) -> bytes:
    """The UTF-8 of a path or a name. A lone surrogate becomes what is not UTF-8, which the library then refuses."""
    if not isinstance(text, str):
        raise TypeError(f"{what} has to be a str, not {type(text).__name__}")
    return text.encode("utf-8", "surrogatepass")


def _names_of(path: str, names: Iterable[str]) -> list[bytes]:
    """Names that are passed in, in the order that the library needs."""
    if isinstance(names, (str, bytes)) or not isinstance(names, Iterable):
        raise TypeError(f"the folder {path!r} has to have an iterable of names or an OSError, not {names!r}")
    return sorted({_encoded(name, f"a name in the folder {path!r}") for name in names})


def _is_utf8(name: bytes) -> bool:
    try:
        name.decode("utf-8")
    except UnicodeDecodeError:
        return False
    return True


def _names_in(folder: bytes) -> list[bytes]:
    """The names in a folder on the disk. One that is not UTF-8 is left out, and so is an entry that cannot be read."""
    names: list[bytes] = []
    with os.scandir(folder) as entries, contextlib.suppress(OSError):
        for entry in entries:
            if _is_utf8(entry.name):
                names.append(entry.name)
    return sorted(names)


class Listings:
    """Folders by their paths, each with its names or its fault. A path that is not among them is not there."""

    def __init__(self, folder: bytes = b"") -> None:
        self._folder = folder
        self._by_path: dict[bytes, Listed] = {}

    @staticmethod
    def of_mapping(folders: Mapping[str, Union[Iterable[str], Fault]]) -> Listings:
        """The folders of a mapping."""
        listings = Listings()
        for path, listed in folders.items():
            key = _encoded(path, "the path of a folder")
            if isinstance(listed, (OSError, MemoryError)):
                listings._by_path[key] = listed
            else:
                listings._by_path[key] = _names_of(path, listed)
        return listings

    @staticmethod
    def of_folder(folder: bytes, more: Iterable[bytes] = ()) -> Listings:
        """All that a completion may ask for, and some more, from the folders below one on the disk."""
        listings = Listings(folder)
        listings._ask(folder, _SOURCES)
        for targets in _TARGETS:
            for name in listings._ask(folder, targets):
                listings._ask(folder, targets + b"/" + name)
        for path in (_TOP, *more):
            if path not in listings._by_path:
                listings._ask(folder, path)
        return listings

    def _ask(self, folder: bytes, path: bytes) -> list[bytes]:
        """Puts what a folder on the disk has, and answers its names."""
        try:
            names = _names_in(os.path.join(folder, path))
        except OSError as fault:
            self._by_path[path] = fault.with_traceback(None)
            return []
        self._by_path[path] = names
        return names

    def count(self) -> int:
        """How many names there are."""
        return sum(len(listed) for listed in self._by_path.values() if isinstance(listed, list))

    def fault(self, number: int) -> tuple[Optional[str], Optional[Fault]]:
        """The folder and the fault of this number for which a completion is refused, where it is `src` or the top."""
        for path in (_SOURCES, _TOP):
            listed = self._by_path.get(path, [])
            if isinstance(listed, list) or _number_of(listed) != number:
                continue
            # (`src` need not be there)
            if (path, number) != (_SOURCES, NOT_FOUND):
                return self._name_of(path), listed
        return (self._name_of(_TOP) if number == NOT_FOUND else None), None

    def _name_of(self, path: bytes) -> str:
        """The path of a folder as the caller has it: on the disk, or in the mapping."""
        if path == _TOP and self._folder:
            return os.fsdecode(self._folder)
        return os.fsdecode(os.path.join(self._folder, path))

    def folders(self) -> ctypes.Array[Folder]:
        """The folders as the library takes them. What they point to lives as long as the array and the listings."""
        made = [_folder(path, listed) for path, listed in self._by_path.items()]
        return (Folder * len(made))(*made)


def _folder(path: bytes, listed: Listed) -> Folder:
    names: list[bytes] = listed if isinstance(listed, list) else []
    number = 0 if isinstance(listed, list) else _number_of(listed)
    slices: Any = (Bytes * len(names))(*(Bytes(name, len(name)) for name in names))
    return Folder((path, len(path)), (slices, len(names)), number)
