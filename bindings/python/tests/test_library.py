"""How the library is found, and refused."""

from __future__ import annotations

import re
import shutil
import tempfile
import unittest
from pathlib import Path
from unittest import mock

from support import PACKAGE, TOP, run_python

import drillolive
from drillolive import _library

WAYS = ("./far --install PREFIX", "pip install ./bindings/python", "DRILLOLIVE_LIBRARY")


class Places(unittest.TestCase):
    """The places of the library, in their order."""

    def setUp(self) -> None:
        """Makes a folder, and takes the variable away."""
        room = tempfile.TemporaryDirectory()
        self.addCleanup(room.cleanup)
        self.room = Path(room.name).resolve()

    def found(self, package: Path, installed: str | None = None) -> str:
        """Returns the path that is found for a package in a folder, where the system has this library, or none."""
        with mock.patch.dict("os.environ"), mock.patch.object(_library, "find_library", return_value=installed):
            _library.os.environ.pop("DRILLOLIVE_LIBRARY", None)
            with mock.patch.object(_library, "__file__", str(package / "_library.py")):
                return _library.library_path()

    def put(self, *names: str) -> list[str]:
        """Makes files below the folder, and returns their paths."""
        for name in names:
            path = self.room / name
            path.parent.mkdir(parents=True, exist_ok=True)
            path.touch()
        return [str(self.room / name) for name in names]

    def test_places(self) -> None:
        cases = {
            "share/drillolive/python/drillolive": "lib/libdrillolive.so",
            "bindings/python/drillolive": "build/lib/libdrillolive.so",
        }
        for folder, place in cases.items():
            package = self.room / folder
            with self.assertRaises(drillolive.LibraryNotFound):
                self.found(package)
            (beside,) = self.put(place)
            self.assertEqual(self.found(package), beside)
            (inside,) = self.put(f"{folder}/libdrillolive.so")
            self.assertEqual(self.found(package), inside)
        self.put("elsewhere/python/drillolive/_library.py")
        with self.assertRaises(drillolive.LibraryNotFound):
            self.found(self.room / "elsewhere/python/drillolive")

    def test_the_variable_and_the_system(self) -> None:
        (inside,) = self.put("drillolive/libdrillolive.so")
        with mock.patch.object(_library, "__file__", str(self.room / "drillolive/_library.py")):
            with mock.patch.dict("os.environ", DRILLOLIVE_LIBRARY="named.so"):
                self.assertEqual(_library.library_path(), "named.so")
                self.assertTrue(Path(inside).is_file())
        self.assertEqual(self.found(self.room / "other", "libdrillolive.so.0"), "libdrillolive.so.0")

    def test_not_found(self) -> None:
        with self.assertRaises(drillolive.LibraryNotFound) as caught:
            self.found(self.room / "drillolive")
        for way in WAYS:
            self.assertIn(way, str(caught.exception))
        self.assertIsInstance(caught.exception, ImportError)


class Refusals(unittest.TestCase):
    """Libraries that are refused."""

    def test_refusals(self) -> None:
        cases = {"/nowhere/libdrillolive.so": "cannot be loaded", "libc.so.6": "another one: .*drillolive_"}
        for path, cause in cases.items():
            with self.subTest(path), self.assertRaisesRegex(drillolive.LibraryNotFound, cause) as caught:
                _library.load(path)
            self.assertIn(WAYS[0], str(caught.exception))

    def test_another_version(self) -> None:
        path = _library.library()._name
        with mock.patch.object(_library, "VERSION", "9.9"):
            told = rf"has version {re.escape(drillolive.__version__)}, and this package calls 9\.9"
            with self.assertRaisesRegex(drillolive.LibraryNotFound, told):
                _library.load(path)

    def test_versions(self) -> None:
        header = (TOP / "include/drillolive.h").read_text()
        (version,) = re.findall(r'#define DRILLOLIVE_VERSION "(.*)"', header)
        self.assertEqual((drillolive.__version__, _library.VERSION), (version, version))
        with self.assertRaises(AttributeError):
            drillolive.missing

    def test_calls(self) -> None:
        """Each call of the header is declared but one: origins give the parents of all faces at once."""
        header = (TOP / "include/drillolive.h").read_text()
        wanted = set(re.findall(r"\b(drillolive_\w+)\((?=[^)]*\)?)", re.sub(r"/\*.*?\*/", "", header, flags=re.S)))
        declared = {name for name in vars(_library.library()) if name.startswith("drillolive_")}
        self.assertEqual(wanted - declared, {"drillolive_level_face_parent"})
        self.assertLessEqual(declared, wanted)

    def test_import_without_library(self) -> None:
        with tempfile.TemporaryDirectory() as room:
            shutil.copytree(PACKAGE / "drillolive", f"{room}/drillolive", ignore=shutil.ignore_patterns("*.so"))
            code = "import drillolive\ntry:\n    drillolive.run([])\nexcept drillolive.LibraryNotFound as fault:\n"
            done = run_python(f"{code}    print(fault)\n", DRILLOLIVE_LIBRARY="", PYTHONPATH=room)
        self.assertEqual(done.returncode, 0, done.stderr)
        self.assertTrue(done.stdout.startswith("The library libdrillolive.so is not found."), done.stdout)

    def test_names(self) -> None:
        for name in drillolive.__all__:
            self.assertTrue(hasattr(drillolive, name), name)
        done = run_python("from drillolive import *\nprint(Mesh.__name__, run.__name__)\n")
        self.assertEqual(done.stdout, "Mesh run\n", done.stderr)


if __name__ == "__main__":
    unittest.main()
