"""Where the library's file lies. The build backend runs this file alone, so nothing of the package is imported."""
from __future__ import annotations

import os
import platform
import sys
from pathlib import Path

NAME = "libcargo_manifest.so"
VARIABLE = "CARGO_MANIFEST_LIBRARY"
# the targets that come with the package, by what platform.machine() calls the processor
TARGETS = {"x86_64": "x86_64-unknown-linux-gnu", "aarch64": "aarch64-unknown-linux-gnu"}
PREBUILT = f"prebuilt/{TARGETS.get(platform.machine(), TARGETS['x86_64'])}/{NAME}"


def is_for_this_machine() -> bool:
    """Whether the library may be loaded: what comes with the package is for some machines, what is named for any."""
    is_named = bool(os.environ.get(VARIABLE))
    return is_named or (sys.platform == "linux" and platform.machine() in TARGETS)


def packed_file(package: Path) -> Path:
    """The library next to the package's modules, as in a wheel; or else that of a folder above, as in a clone."""
    places = [package / NAME, *(folder / PREBUILT for folder in list(package.parents)[:3])]
    for place in places:
        if place.is_file():
            return place
    raise ImportError(
        f"there is no {NAME} next to the modules of cargo_manifest, nor a {PREBUILT} above them: install the"
        f" package from its wheel, or name the library's file by the environment variable {VARIABLE}"
    )


def library_file(package: Path) -> Path:
    """The library that is named by the environment, or else the one that comes with the package of this folder.

    An ImportError says what to do where there is none.
    """
    named = os.environ.get(VARIABLE)
    if not named:
        return packed_file(package)
    if not Path(named).is_file():
        raise ImportError(f"{VARIABLE} names {named}, which is no file: name the library {NAME} by it")
    return Path(named).resolve()
