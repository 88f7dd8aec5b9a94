"""Which file is loaded as the library, what is said where none is, and how the declarations lie in memory."""
import ctypes
import os
import shutil
import subprocess
import tempfile
import unittest
from pathlib import Path
from typing import Optional

from cargo_manifest import _library
from cargo_manifest._found import NAME, PREBUILT

from .places import LIBRARY, PACKAGE, TOP, VARIABLE, python

SHOWN = "import cargo_manifest\nprint(cargo_manifest._answer.manifest_run, cargo_manifest._library._LIBRARY._name)"


class WithoutThisLibrary(unittest.TestCase):
    def setUp(self) -> None:
        room = tempfile.TemporaryDirectory()
        self.addCleanup(room.cleanup)
        # the package, in a folder of its own with three above
        self.modules = Path(room.name).resolve() / "a" / "b" / "c"
        shutil.copytree(PACKAGE, self.modules / PACKAGE.name, ignore=shutil.ignore_patterns("__pycache__", NAME))

    def fault(self, code: str = SHOWN, library: Optional[str] = None) -> str:
        said, fault = python(code, library=library, modules=self.modules)
        self.assertEqual(said, "")
        self.assertRegex(fault, "^ImportError: ")
        return fault

    def test_there_is_none(self) -> None:
        fault = self.fault()
        self.assertIn(f"there is no {NAME}", fault)
        self.assertIn(VARIABLE, fault)

    def test_the_one_that_is_named(self) -> None:
        self.assertIn(LIBRARY, python(SHOWN, library=LIBRARY, modules=self.modules)[0])

    def test_what_is_named_is_not_there(self) -> None:
        shutil.copy(LIBRARY, self.modules / PACKAGE.name / NAME)
        self.assertIn("/no/such/file", self.fault(library="/no/such/file"))
        self.assertIn("is no file", self.fault(library=str(self.modules)))

    def test_what_is_named_is_no_library(self) -> None:
        fault = self.fault(library=str(Path(__file__).resolve()))
        self.assertIn("cannot be loaded", fault)
        self.assertIn(VARIABLE, fault)

    def test_a_library_without_the_calls(self) -> None:
        import _ctypes

        other = getattr(_ctypes, "__file__", None)
        if other is None:
            self.skipTest("this Python has no module of its own that is a library")
        self.assertIn("no call manifest_version", self.fault(library=other))

    def test_a_library_of_another_version(self) -> None:
        def version() -> int:
            return 1

        with self.assertRaisesRegex(ImportError, "has version 1 of its calls.* written for version 4"):
            _library.compare_versions({"manifest_version": version})  # type: ignore[arg-type]

    def test_beside_the_modules_and_above(self) -> None:
        package = self.modules / PACKAGE.name
        above = [package.parents[number] / PREBUILT for number in (2, 1, 0)]
        for file in (*above, package / NAME):
            file.parent.mkdir(parents=True, exist_ok=True)
            shutil.copy(LIBRARY, file)
            # (the nearest one counts, which is the one that was put there last)
            said, fault = python(SHOWN, modules=self.modules)
            self.assertIn(str(file), said, fault)

    def test_another_machine(self) -> None:
        shutil.copy(LIBRARY, self.modules / PACKAGE.name / NAME)
        for change in ("import platform; platform.machine = lambda: 'riscv64'\n", "sys.platform = 'darwin'\n"):
            fault = self.fault(change + SHOWN)
            self.assertIn("Linux on x86-64 and on arm64", fault)
            self.assertIn(VARIABLE, fault)
            self.assertIn(LIBRARY, python(change + SHOWN, library=LIBRARY, modules=self.modules)[0])


class Declarations(unittest.TestCase):
    def line(self, name: str, kind: "type[ctypes.Structure]") -> str:
        """The line that bindings/c/calls.c prints of a declaration."""
        fields = ", ".join(f"{field[0]} {getattr(kind, field[0]).offset}" for field in kind._fields_)
        return f"{name}: {ctypes.sizeof(kind)}, {fields}"

    def test_layout(self) -> None:
        calls, cc = TOP / "bindings" / "c" / "calls.c", shutil.which("cc")
        if cc is None or not calls.is_file():
            self.skipTest("there is no command cc, or no bindings/c/calls.c")
        with tempfile.TemporaryDirectory() as room:
            program = str(Path(room, "calls"))
            subprocess.run([cc, "-o", program, str(calls), LIBRARY, "-pthread"], check=True)
            # (the program looks for the library by a name of its own)
            settings = {**os.environ, "LD_PRELOAD": LIBRARY}
            said = subprocess.run([program, "layout"], env=settings, check=True, capture_output=True, text=True).stdout
        kinds = {
            "answer": _library.Answer,
            "folder": _library.Folder,
            "bytes": _library.Bytes,
            "names": _library.Names,
            "folders": _library.Folders,
            "path": _library.Path,
            "step": _library.Step,
            "edit": _library.Edit,
            "request": _library.Request,
            "member": _library.Member,
            "package": _library.Package,
            "indexes": _library.Indexes,
            "members": _library.Members,
            "packages": _library.Packages,
            "check_request": _library.CheckRequest,
        }
        self.assertEqual(said.splitlines(), [self.line(name, kind) for name, kind in kinds.items()])

    def test_no_slice_is_null(self) -> None:
        from cargo_manifest._listings import Listings

        for given in ({}, {"": []}, {".": [""], "src": FileNotFoundError()}):
            folders = Listings.of_mapping(given).folders()
            self.assertNotEqual(ctypes.addressof(folders), 0)
            self.assertEqual(ctypes.addressof(folders) % ctypes.alignment(_library.Folder), 0)
            for folder in folders:
                names = ctypes.cast(folder.names.at, ctypes.c_void_p).value
                self.assertTrue(names)
                self.assertEqual((names or 1) % ctypes.alignment(_library.Bytes), 0)
                self.assertIsNotNone(folder.path.at)
