"""Manifests, roots and folders as a caller passes them in."""
from __future__ import annotations

import os
from collections.abc import Iterable, Mapping
from typing import Optional, Union

from ._listings import Folders, Listings

Text = Union[bytes, bytearray, memoryview, str, os.PathLike[str]]


def bytes_of(text: Text, what: str) -> bytes:
    """The bytes of a text: its own, or those of the file that is named.

    A lone surrogate of a `str` becomes what is not UTF-8, which the library then refuses.
    """
    if isinstance(text, os.PathLike):
        with open(text, "rb") as file:
            return file.read()
    if isinstance(text, str):
        return text.encode("utf-8", "surrogatepass")
    if isinstance(text, (bytes, bytearray, memoryview)):
        return bytes(text)
    raise TypeError(f"the {what} has to be bytes, a str with its text, or a path, not {type(text).__name__}")


def listings_of(manifest: Text, folders: Optional[Folders]) -> Listings:
    """The listings of the folders that are passed in, or else of the one that the manifest's file stands in."""
    if folders is None:
        if not isinstance(manifest, os.PathLike):
            raise TypeError("without folders the manifest has to be a path, whose folder is then listed")
        return Listings.of_folder(os.path.dirname(os.fsencode(manifest)))
    return given_listings(folders)


def given_listings(folders: Folders, more: Iterable[bytes] = ()) -> Listings:
    """The listings of the folders that are passed in; of those on the disk also of some more."""
    if isinstance(folders, Mapping):
        return Listings.of_mapping(folders)
    if isinstance(folders, (str, os.PathLike)):
        return Listings.of_folder(os.fsencode(folders), more)
    raise TypeError(f"folders have to be a path or a mapping, not {type(folders).__name__}")
