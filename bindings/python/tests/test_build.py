"""The wheel and the source distribution, and what is installed of them."""
import base64
import email
import hashlib
import os
import re
import shutil
import subprocess
import sys
import tarfile
import tempfile
import unittest
import zipfile
from pathlib import Path
from unittest import mock

from cargo_manifest._found import NAME, PREBUILT

from .places import LIBRARY, PACKAGE, PROJECT, TOP, VARIABLE, python

if not (PROJECT / "build_wheel.py").is_file():
    raise unittest.SkipTest("there is no build backend here")

with mock.patch.object(sys, "path", [str(PROJECT), *sys.path]):
    import build_wheel

VERSION = re.findall(r'^version = "(.*)"$', (PROJECT / "pyproject.toml").read_text(encoding="utf-8"), re.M)[0]
BASE = f"cargo_manifest_proved-{VERSION}"
# the beginning of a library for Linux, up to where it names its processor
HEAD = b"\x7fELF\x02\x01\x01" + bytes(11)
SHOWN = "import cargo_manifest\nprint(cargo_manifest.__file__, cargo_manifest.canonical(\"name = 'a'\"), end='')"


class Built(unittest.TestCase):
    def setUp(self) -> None:
        room = tempfile.TemporaryDirectory()
        self.addCleanup(room.cleanup)
        self.room = Path(room.name).resolve()
        settings = mock.patch.dict(os.environ, {VARIABLE: LIBRARY})
        settings.start()
        self.addCleanup(settings.stop)

    def folder(self, name: str) -> Path:
        (self.room / name).mkdir()
        return self.room / name

    def wheel(self, name: str = "wheel") -> Path:
        folder = self.folder(name)
        return folder / build_wheel.build_wheel(str(folder))

    def sdist(self, name: str = "sdist") -> Path:
        folder = self.folder(name)
        return folder / build_wheel.build_sdist(str(folder))

    def install(self, what: Path, *words: str, is_named: bool = True) -> None:
        """Installs by pip, without network, into a folder of the room."""
        if subprocess.run([sys.executable, "-m", "pip", "--version"], capture_output=True).returncode != 0:
            self.skipTest("there is no pip")
        settings = dict(os.environ)
        if not is_named:
            del settings[VARIABLE]
        pip = [sys.executable, "-m", "pip", "install", "--quiet", "--no-index", "--disable-pip-version-check", *words]
        done = subprocess.run([*pip, str(what)], env=settings, capture_output=True, text=True, cwd=self.room)
        self.assertEqual(done.returncode, 0, done.stdout + done.stderr)

    def is_used(self, modules: Path) -> None:
        """The package of a folder runs, over the library in it."""
        file = modules / "cargo_manifest" / "__init__.py"
        self.assertEqual(python(SHOWN, modules=modules), (f'{file} [package]\nname = "a"\n', ""))


class Wheel(Built):
    def test_files(self) -> None:
        with zipfile.ZipFile(self.wheel()) as packed:
            names = packed.namelist()
            self.assertEqual(packed.read(f"cargo_manifest/{NAME}"), Path(LIBRARY).read_bytes())
            for name in ("LICENSE-APACHE", "LICENSE-MIT"):
                self.assertTrue(packed.read(f"{BASE}.dist-info/licenses/{name}"))
            self.assertEqual({entry.date_time for entry in packed.infolist()}, {(1980, 1, 1, 0, 0, 0)})
            self.assertIsNone(packed.testzip())
        modules = {f"cargo_manifest/{file.name}" for file in PACKAGE.glob("*.py")}
        self.assertLessEqual(modules | {"cargo_manifest/py.typed", f"{BASE}.dist-info/METADATA"}, set(names))
        self.assertEqual(len(names), len(modules) + 7)
        self.assertEqual(names[-1], f"{BASE}.dist-info/RECORD")

    def test_name_and_tag(self) -> None:
        wheel = self.wheel()
        self.assertEqual(wheel.name, f"{BASE}-py3-none-manylinux_2_17_x86_64.musllinux_1_1_x86_64.whl")
        with zipfile.ZipFile(wheel) as packed:
            said = email.message_from_bytes(packed.read(f"{BASE}.dist-info/WHEEL"))
        self.assertEqual((said["Wheel-Version"], said["Root-Is-Purelib"]), ("1.0", "false"))
        tags = ["py3-none-manylinux_2_17_x86_64", "py3-none-musllinux_1_1_x86_64"]
        self.assertEqual(said.get_all("Tag"), tags)

    def test_taken_by_pip(self) -> None:
        for system in ("manylinux_2_17_x86_64", "musllinux_1_1_x86_64"):
            words = ["--platform", system, "--only-binary", ":all:", "--target", system]
            self.install(self.wheel(f"for {system}"), *words)
            self.assertEqual((self.room / system / "cargo_manifest" / NAME).read_bytes(), Path(LIBRARY).read_bytes())

    def test_tags_of_libraries(self) -> None:
        asked = {b"": "2_17", b"\0GLIBC_2.2.5\0GLIBC_2.14\0": "2_17", b"\0GLIBC_2.34\0GLIBC_2.4\0": "2_34"}
        for symbols, system in asked.items():
            for machine, byte in (("x86_64", b"\x3e"), ("aarch64", b"\xb7")):
                tags = build_wheel.tags_of(HEAD + byte + b"\0" + symbols)
                self.assertEqual(tags, [f"manylinux_{system}_{machine}", f"musllinux_1_1_{machine}"])
        for other in (b"", b"MZ", HEAD + b"\xf3\0", HEAD[:4] + b"\x01" + HEAD[5:] + b"\x3e\0"):
            with self.assertRaisesRegex(ValueError, "x86-64 or arm64"):
                build_wheel.tags_of(other)

    def test_metadata(self) -> None:
        with zipfile.ZipFile(self.wheel()) as packed:
            said = email.message_from_string(packed.read(f"{BASE}.dist-info/METADATA").decode("utf-8"))
        readme = (PROJECT / "README.md").read_text(encoding="utf-8")
        self.assertEqual((said["Name"], said["Version"]), ("cargo-manifest-proved", VERSION))
        self.assertEqual((said["License-Expression"], said["Requires-Python"]), ("MIT OR Apache-2.0", ">=3.9"))
        self.assertEqual(said.get_all("License-File"), ["LICENSE-APACHE", "LICENSE-MIT"])
        self.assertEqual(said.get_payload(), readme)

    def test_record(self) -> None:
        with zipfile.ZipFile(self.wheel()) as packed:
            held = {name: packed.read(name) for name in packed.namelist()}
        own = f"{BASE}.dist-info/RECORD"
        lines = held.pop(own).decode("utf-8").splitlines()
        self.assertEqual(lines.pop(), f"{own},,")
        recorded = dict(line.split(",", 1) for line in lines)
        self.assertEqual(recorded.keys(), held.keys())
        for name, line in recorded.items():
            kind, digest, size = re.fullmatch(r"(\w+)=([\w-]+),(\d+)", line).groups()  # type: ignore[union-attr]
            self.assertEqual((kind, int(size)), ("sha256", len(held[name])))
            self.assertEqual(base64.urlsafe_b64decode(digest + "="), hashlib.sha256(held[name]).digest())

    def test_the_same_bytes_again(self) -> None:
        self.assertEqual(self.wheel().read_bytes(), self.wheel("again").read_bytes())
        self.assertEqual(self.sdist().read_bytes(), self.sdist("sdist-again").read_bytes())

    def test_the_version_is_that_of_the_rust_crate(self) -> None:
        crate = TOP / "bindings" / "rust" / "Cargo.toml"
        if not crate.is_file():
            self.skipTest("the Rust crate is not there")
        found = re.search(r'^version = "(.*)"$', crate.read_text(encoding="utf-8"), re.M)
        self.assertEqual(found and found[1], build_wheel.project()["version"])

    def test_there_is_no_library(self) -> None:
        with mock.patch.dict(os.environ, {VARIABLE: "/no/such/file"}), self.assertRaisesRegex(ImportError, VARIABLE):
            build_wheel.build_wheel(str(self.room))


class SourceDistribution(Built):
    def test_a_wheel_of_it_is_the_same(self) -> None:
        with tarfile.open(self.sdist()) as packed:
            names = packed.getnames()
            for name in names:
                held = packed.extractfile(name)
                (self.room / name).parent.mkdir(parents=True, exist_ok=True)
                (self.room / name).write_bytes(held.read() if held else b"")
        self.assertEqual({name.split("/")[0] for name in names}, {BASE})
        self.assertIn(f"{BASE}/PKG-INFO", names)
        self.assertIn(f"{BASE}/{PREBUILT}", names)
        code = f"import build_wheel\nprint(build_wheel.build_wheel({str(self.folder('made'))!r}))"
        said, fault = python(code, modules=self.room / BASE)
        self.assertEqual(fault, "")
        self.assertEqual((self.room / "made" / said.strip()).read_bytes(), self.wheel().read_bytes())


class Installed(Built):
    def test_from_the_folder(self) -> None:
        before = sorted(path for path in PROJECT.rglob("*") if "__pycache__" not in path.parts)
        self.install(PROJECT, "--target", "there")
        self.is_used(self.room / "there")
        after = sorted(path for path in PROJECT.rglob("*") if "__pycache__" not in path.parts)
        self.assertEqual(before, after)

    def test_from_the_source_distribution(self) -> None:
        self.install(self.sdist(), "--target", "there", is_named=False)
        self.is_used(self.room / "there")

    def test_editable(self) -> None:
        folder = self.folder("packed")
        for name in ("README.md", "build_wheel.py", "pyproject.toml"):
            shutil.copy(PROJECT / name, folder)
        shutil.copytree(PACKAGE, folder / PACKAGE.name, ignore=shutil.ignore_patterns("__pycache__"))
        for name, text in build_wheel.licences().items():
            (folder / name).write_bytes(text)
        (folder / PREBUILT).parent.mkdir(parents=True)
        shutil.copy(LIBRARY, folder / PREBUILT)
        done = subprocess.run([sys.executable, "-m", "venv", str(self.room / "venv")], capture_output=True, text=True)
        if done.returncode != 0:
            self.skipTest("there is no venv")
        with mock.patch.object(sys, "executable", str(self.room / "venv" / "bin" / "python")):
            self.install(folder, "--editable", is_named=False)
            self.is_used(folder)
