"""The build backend (PEP 517 and PEP 660), which needs nothing but Python.

What is built has the library in it: the file that the package would load from where it stands. The same files make the
same wheel and the same source distribution, to the byte.
"""
from __future__ import annotations

import base64
import gzip
import hashlib
import io
import re
import runpy
import tarfile
import zipfile
from pathlib import Path
from typing import Any, Optional

HERE = Path(__file__).resolve().parent
PACKAGE = HERE / "cargo_manifest"
LICENCES = ("LICENSE-APACHE", "LICENSE-MIT")

# the time of each packed file: the first that a wheel can have
BEGAN = (1980, 1, 1, 0, 0, 0)
BEGAN_SECONDS = 315_532_800

# the oldest C libraries that are supported, as `manylinux` and `musllinux` count them
OLDEST = (2, 17)
OLDEST_MUSL = "1_1"

# the processors that there is a library for, by what a file has in the place of the processor
MACHINES = {b"\x3e\x00": "x86_64", b"\xb7\x00": "aarch64"}

Files = dict[str, bytes]

FOUND = runpy.run_path(str(PACKAGE / "_found.py"))
PLACES = {machine: f"prebuilt/{machine}-unknown-linux-gnu/{FOUND['NAME']}" for machine in MACHINES.values()}


def project() -> dict[str, str]:
    """The texts of the table [project] in pyproject.toml."""
    text = (HERE / "pyproject.toml").read_text(encoding="utf-8")
    lines = text[text.index("\n[project]\n") :]
    return dict(re.findall(r'^([a-z-]+) = "([^"\\]*)"$', lines, re.M))


def base_name() -> str:
    """Name and version, as they begin the names of files and folders."""
    project_table = project()
    return f"{project_table['name'].replace('-', '_')}-{project_table['version']}"


def library() -> bytes:
    """The library that is packed."""
    held: bytes = FOUND["library_file"](PACKAGE).read_bytes()
    return held


def libraries() -> Files:
    """The library that is packed, and those for other processors that come with it in prebuilt/, each by its place there."""
    file: Path = FOUND["library_file"](PACKAGE)
    files = {PLACES[machine_of(library())]: library()}
    if file.parent.parent.name == "prebuilt":
        others = [place for place in PLACES.values() if (file.parents[2] / place).is_file()]
        files.update((place, (file.parents[2] / place).read_bytes()) for place in others)
    return files


def licences() -> Files:
    """The licences, from here or from a folder above."""
    places = [HERE, *list(HERE.parents)[:2]]
    return {name: next(at / name for at in places if (at / name).is_file()).read_bytes() for name in LICENCES}


def modules() -> Files:
    """The package but for the library."""
    files = [*PACKAGE.glob("*.py"), PACKAGE / "py.typed"]
    return {f"{PACKAGE.name}/{file.name}": file.read_bytes() for file in files}


def metadata() -> bytes:
    """The metadata of the package, and its README."""
    project_table = project()
    lines = [
        "Metadata-Version: 2.4",
        f"Name: {project_table['name']}",
        f"Version: {project_table['version']}",
        f"Summary: {project_table['description']}",
        f"License-Expression: {project_table['license']}",
        *(f"License-File: {name}" for name in LICENCES),
        f"Requires-Python: {project_table['requires-python']}",
        "Description-Content-Type: text/markdown",
        "",
        (HERE / project_table["readme"]).read_text(encoding="utf-8"),
    ]
    return "\n".join(lines).encode("utf-8")


def machine_of(held: bytes) -> str:
    """For which processor a library is."""
    machine = MACHINES.get(held[18:20]) if held[:6] == b"\x7fELF\x02\x01" else None
    if machine is None:
        raise ValueError(f"{FOUND['NAME']} is no library for Linux on x86-64 or arm64")
    return machine


def tags_of(held: bytes) -> list[str]:
    """For which systems a library is: Linux on its processor, with the newest C library that its symbols ask for or a newer
    one, or with musl, which takes the same file."""
    machine = machine_of(held)
    asked = re.findall(rb"\0GLIBC_(\d+)\.(\d+)", held)
    major, minor = max([OLDEST, *((int(major), int(minor)) for major, minor in asked)])
    return [f"manylinux_{major}_{minor}_{machine}", f"musllinux_{OLDEST_MUSL}_{machine}"]


def record(files: Files, own: str) -> bytes:
    """The list of all files with their hashes, in which its own stands without one."""
    lines = []
    for path, held in files.items():
        digest = base64.urlsafe_b64encode(hashlib.sha256(held).digest()).rstrip(b"=").decode("ascii")
        lines.append(f"{path},sha256={digest},{len(held)}\n")
    return "".join([*lines, f"{own},,\n"]).encode("utf-8")


def write_wheel(folder: str, systems: list[str], held: Files) -> str:
    """A wheel of these files for some systems, and what every wheel also has. Returns its name."""
    about = f"{base_name()}.dist-info"
    files = dict(sorted(held.items()))
    files[f"{about}/METADATA"] = metadata()
    tags = "".join(f"Tag: py3-none-{system}\n" for system in systems)
    files[f"{about}/WHEEL"] = (
        f"Wheel-Version: 1.0\nGenerator: {base_name()}\nRoot-Is-Purelib: false\n{tags}".encode("ascii")
    )
    for name, text in licences().items():
        files[f"{about}/licenses/{name}"] = text
    files[f"{about}/RECORD"] = record(files, f"{about}/RECORD")
    wheel = f"{base_name()}-py3-none-{'.'.join(systems)}.whl"
    with zipfile.ZipFile(Path(folder) / wheel, "w", zipfile.ZIP_DEFLATED, compresslevel=9) as packed:
        for path, bytes_in_it in files.items():
            entry = zipfile.ZipInfo(path, BEGAN)
            entry.create_system, entry.external_attr = 3, 0o100644 << 16
            packed.writestr(entry, bytes_in_it, zipfile.ZIP_DEFLATED, 9)
    return wheel


def build_wheel(wheel_directory: str, config_settings: Any = None, metadata_directory: Optional[str] = None) -> str:
    """The package with its library."""
    held = library()
    return write_wheel(wheel_directory, tags_of(held), {**modules(), f"{PACKAGE.name}/{FOUND['NAME']}": held})


def build_editable(wheel_directory: str, config_settings: Any = None, metadata_directory: Optional[str] = None) -> str:
    """A wheel that leads to the package where it stands, with the library that it finds from there."""
    return write_wheel(wheel_directory, ["any"], {f"{PACKAGE.name}.pth": f"{HERE}\n".encode("utf-8")})


def build_sdist(sdist_directory: str, config_settings: Any = None) -> str:
    """All that a wheel is built of."""
    files = {**modules(), **licences(), "PKG-INFO": metadata(), **libraries()}
    for name in ("README.md", "build_wheel.py", "pyproject.toml"):
        files[name] = (HERE / name).read_bytes()
    sdist = f"{base_name()}.tar.gz"
    with open(Path(sdist_directory) / sdist, "wb") as raw, gzip.GzipFile("", "wb", 9, raw, 0) as packed:
        with tarfile.open(fileobj=packed, mode="w", format=tarfile.PAX_FORMAT) as tar:
            for path, held in sorted(files.items()):
                entry = tarfile.TarInfo(f"{base_name()}/{path}")
                entry.size, entry.mode, entry.mtime = len(held), 0o644, BEGAN_SECONDS
                tar.addfile(entry, io.BytesIO(held))
    return sdist
