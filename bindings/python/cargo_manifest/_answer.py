"""One call of the library, with memory for its text."""
from __future__ import annotations

import ctypes
from typing import Any, Callable, Optional

from ._library import Answer, Call, CheckRequest, Request, manifest_diagnostics, manifest_run
from ._listings import Listings
from ._numbers import ACCEPTED
from ._reader import utf8
from ._refusal import refusal


# the largest bound that can be passed to the library
_ANY: int = ctypes.c_size_t(-1).value


def limit_of(most: Optional[int]) -> int:
    """How many bytes a call may give, of what its caller said."""
    if most is None:
        return _ANY
    if isinstance(most, bool) or not isinstance(most, int):
        raise TypeError(f"most has to be an int or None, not {type(most).__name__}")
    if most < 0:
        raise ValueError(f"most has to be 0 or more, not {most}")
    return min(most, _ANY)


# what the bytes of a request are, and what it asks for: as the header has them
OF_TEXT, OF_TABLE = 0, 1
AS_TEXT, AS_TABLE = 0, 1


def answered(
    call: Call,
    most: Optional[int],
    manifest: bytes,
    *more: Any,
    room: Optional[int] = None,
    root: bytes = b"",
    listings: Optional[Listings] = None,
) -> bytes:
    """What a call of a text, and of what more it takes, gives in at most this many bytes; else the exception of its refusal
    is raised. `room` is how many bytes the answer is expected to have; the root and the listings are those that it takes."""
    limit = limit_of(most)
    expected = 2 * len(manifest) if room is None else room
    return _given(
        lambda out, room: call(manifest, len(manifest), *more, limit, out, room),
        min(256 + expected, limit + 1),
        (manifest, root, listings),
    )


def asked(
    output: int,
    most: Optional[int],
    manifest: bytes,
    root: Optional[bytes] = None,
    listings: Optional[Listings] = None,
    *,
    form: int = OF_TEXT,
) -> bytes:
    """What a request gives, in at most this many bytes; else the exception of its refusal is raised.

    `form` says what the bytes are, and `output` what is asked for of the manifest that they make, with what it inherits
    from the root, and completed over the listings, where these are passed in.
    """
    limit = limit_of(most)
    request = Request(bytes=(manifest, len(manifest)), most=limit, input=form, output=output)
    room = 256 + 2 * len(manifest)
    if root is not None:
        request.root, request.has_root = (root, len(root)), 1
        room += 2 * len(root)
    if listings is not None:
        folders = listings.folders()
        request.folders, request.has_folders = (folders, len(folders)), 1
        room += 128 * listings.count()
    return _given(lambda out, room: manifest_run(request, out, room), min(room, limit + 1), (manifest, root or b"", listings))


def checked(request: CheckRequest, given: tuple[bytes, bytes, Optional[Listings]]) -> bytes:
    """What is wrong with a manifest, as tagged bytes; else the exception of the refusal is raised. `given` is the manifest, the
    root and the listings of the request."""
    room = min(4096 + 4 * len(given[0]), request.most + 1)
    return _given(lambda out, room: manifest_diagnostics(request, out, room), room, given)


def _given(
    call: Callable[[Any, int], Answer], room: int, given: tuple[bytes, bytes, Optional[Listings]]
) -> bytes:
    """What a call gives. It is made with room that most texts fit into, and once more where the text takes more."""
    # (there has to be a byte that can be pointed to)
    while True:
        out = bytearray(room)
        answer = call(ctypes.byref(ctypes.c_char.from_buffer(out)), room)
        if answer.length <= room:
            break
        room = answer.length
    said = bytes(memoryview(out)[: answer.length])
    if answer.status == ACCEPTED:
        return said
    raise refusal(answer, utf8(said), *given)
