"""The library, and its declarations: those of `cargo_manifest.h`."""
from __future__ import annotations

import ctypes
import pathlib
from typing import Any, Callable

from ._found import NAME, VARIABLE, is_for_this_machine, library_file


class Answer(ctypes.Structure):
    """`struct manifest_answer`."""

    status: int
    cause: int
    length: int
    start: int
    end: int

    _fields_ = [
        ("status", ctypes.c_uint8),
        ("cause", ctypes.c_uint8),
        ("length", ctypes.c_size_t),
        ("start", ctypes.c_size_t),
        ("end", ctypes.c_size_t),
    ]


class Bytes(ctypes.Structure):
    """`struct manifest_bytes`."""

    _fields_ = [("at", ctypes.c_char_p), ("length", ctypes.c_size_t)]


class Names(ctypes.Structure):
    """`struct manifest_names`."""

    _fields_ = [("at", ctypes.POINTER(Bytes)), ("length", ctypes.c_size_t)]


class Folder(ctypes.Structure):
    """`struct manifest_folder`."""

    _fields_ = [("path", Bytes), ("names", Names), ("fault", ctypes.c_uint8)]


class Folders(ctypes.Structure):
    """`struct manifest_folders`."""

    _fields_ = [("at", ctypes.POINTER(Folder)), ("length", ctypes.c_size_t)]


class Request(ctypes.Structure):
    """`struct manifest_request`."""

    _fields_ = [
        ("bytes", Bytes),
        ("root", Bytes),
        ("folders", Folders),
        ("most", ctypes.c_size_t),
        ("input", ctypes.c_uint8),
        ("output", ctypes.c_uint8),
        ("has_root", ctypes.c_uint8),
        ("has_folders", ctypes.c_uint8),
    ]


class Step(ctypes.Structure):
    """`struct manifest_step`."""

    _fields_ = [("key", Bytes), ("index", ctypes.c_size_t), ("is_index", ctypes.c_uint8)]


class Path(ctypes.Structure):
    """`struct manifest_path`."""

    _fields_ = [("at", ctypes.POINTER(Step)), ("length", ctypes.c_size_t)]


class Edit(ctypes.Structure):
    """`struct manifest_edit`."""

    _fields_ = [("path", Path), ("text", Bytes), ("kind", ctypes.c_uint8)]


class Indexes(ctypes.Structure):
    """`struct manifest_indexes`."""

    _fields_ = [("at", ctypes.POINTER(ctypes.c_size_t)), ("length", ctypes.c_size_t)]


class Member(ctypes.Structure):
    """`struct manifest_member`."""

    _fields_ = [("path", Bytes), ("bytes", Bytes), ("patterns", Indexes), ("has_manifest", ctypes.c_uint8)]


class Members(ctypes.Structure):
    """`struct manifest_members`."""

    _fields_ = [("at", ctypes.POINTER(Member)), ("length", ctypes.c_size_t)]


class Package(ctypes.Structure):
    """`struct manifest_package`."""

    _fields_ = [("path", Bytes), ("name", Bytes), ("has_name", ctypes.c_uint8)]


class Packages(ctypes.Structure):
    """`struct manifest_packages`."""

    _fields_ = [("at", ctypes.POINTER(Package)), ("length", ctypes.c_size_t)]


class CheckRequest(ctypes.Structure):
    """`struct manifest_check_request`."""

    most: int

    _fields_ = [
        ("bytes", Bytes),
        ("root", Bytes),
        ("config", Bytes),
        ("folders", Folders),
        ("members", Members),
        ("packages", Packages),
        ("most", ctypes.c_size_t),
        ("has_root", ctypes.c_uint8),
        ("is_listed", ctypes.c_uint8),
        ("has_config", ctypes.c_uint8),
        ("has_folders", ctypes.c_uint8),
        ("has_members", ctypes.c_uint8),
        ("has_packages", ctypes.c_uint8),
        ("publishes", ctypes.c_uint8),
    ]


Call = Callable[..., Answer]


def broken() -> RuntimeError:
    """What is raised of an answer that the library never gives."""
    return RuntimeError("cargo_manifest does not know this answer of the library: the two are of different versions")


def _loaded() -> ctypes.CDLL:
    """The library, or an ImportError that says what to do."""
    advice = f"name a {NAME} that is built for this machine by the environment variable {VARIABLE}"
    if not is_for_this_machine():
        raise ImportError(f"the library that comes with cargo_manifest is for Linux on x86-64 and on arm64 alone: {advice}")
    file = library_file(pathlib.Path(__file__).resolve().parent)
    try:
        return ctypes.CDLL(str(file))
    except OSError as fault:
        raise ImportError(f"the library of cargo_manifest cannot be loaded ({fault}): {advice}") from fault


# the version of the calls that this package is written for: MANIFEST_VERSION of `cargo_manifest.h`
_VERSION = 4


def compare_versions(library: ctypes.CDLL) -> None:
    """Raises an ImportError where the library has another version of the calls than this package is written for."""
    try:
        version = library["manifest_version"]
    except AttributeError as fault:
        raise ImportError(f"the library has no call manifest_version: name a {NAME} that has it by {VARIABLE}") from fault
    version.argtypes = []
    version.restype = ctypes.c_uint32
    if version() != _VERSION:
        raise ImportError(f"the library has version {version()} of its calls, and cargo_manifest is written for version "
                          f"{_VERSION}: name a {NAME} of that version by {VARIABLE}")


def _declared(library: ctypes.CDLL, name: str, *takes: Any) -> Call:
    """A call that takes these, and after them the memory for its answer."""
    try:
        call = library[name]
    except AttributeError as fault:
        raise ImportError(f"the library has no call {name}: name a {NAME} that has it by {VARIABLE}") from fault
    call.argtypes = [*takes, ctypes.POINTER(ctypes.c_char), ctypes.c_size_t]
    call.restype = Answer
    return call


_TEXT = (ctypes.c_char_p, ctypes.c_size_t)
# the most bytes that an answer may have
_MOST = ctypes.c_size_t
_OFFSETS = (ctypes.POINTER(ctypes.c_size_t), ctypes.c_size_t)
_FOLDERS = (ctypes.POINTER(Folder), ctypes.c_size_t)
_EDITS = (ctypes.POINTER(Edit), ctypes.c_size_t)
_LIBRARY = _loaded()
compare_versions(_LIBRARY)
manifest_run = _declared(_LIBRARY, "manifest_run", Request)
manifest_diagnostics = _declared(_LIBRARY, "manifest_diagnostics", CheckRequest)
manifest_document = _declared(_LIBRARY, "manifest_document", *_TEXT, _MOST)
manifest_findings = _declared(_LIBRARY, "manifest_findings", *_TEXT, _MOST)
manifest_placed_findings = _declared(_LIBRARY, "manifest_placed_findings", *_TEXT, _MOST)
manifest_placed_refusals = _declared(_LIBRARY, "manifest_placed_refusals", *_TEXT, *_TEXT, _MOST)
manifest_placed_unfound_targets = _declared(_LIBRARY, "manifest_placed_unfound_targets", *_TEXT, *_FOLDERS, _MOST)
manifest_positions = _declared(_LIBRARY, "manifest_positions", *_TEXT, *_OFFSETS, _MOST)
manifest_edited = _declared(_LIBRARY, "manifest_edited", *_TEXT, *_EDITS, ctypes.c_uint8, _MOST)
manifest_table_without_metadata = _declared(_LIBRARY, "manifest_table_without_metadata", *_TEXT, _MOST)
