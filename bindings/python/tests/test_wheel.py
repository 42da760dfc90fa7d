"""The wheel: it is built and installed offline, and is found with its own library."""

from __future__ import annotations

import importlib.util
import os
import subprocess
import sys
import tempfile
import unittest
import zipfile
from pathlib import Path
from types import ModuleType

from support import EXAMPLES, TOP

import drillolive
from drillolive._library import library

SOURCE = TOP / "bindings" / "python"
HAS_PIP = importlib.util.find_spec("pip") is not None


def backend() -> ModuleType:
    """Returns the build backend."""
    spec = importlib.util.spec_from_file_location("build_wheel", SOURCE / "build_wheel.py")
    module = importlib.util.module_from_spec(spec)
    spec.loader.exec_module(module)
    return module


def environment(**variables: str) -> dict[str, str]:
    """Returns the variables of this process without those that lead to the checkout, and others."""
    held = {name: value for name, value in os.environ.items() if name not in ("PYTHONPATH", "DRILLOLIVE_LIBRARY")}
    return {**held, **variables}


@unittest.skipUnless(SOURCE.is_dir(), "this is no checkout")
class Wheel(unittest.TestCase):
    """What is built."""

    def setUp(self) -> None:
        """Makes a folder."""
        room = tempfile.TemporaryDirectory()
        self.addCleanup(room.cleanup)
        self.room = Path(room.name)
        self.library = str(Path(library()._name).resolve())

    def build(self, **variables: str) -> subprocess.CompletedProcess[str]:
        """Builds the wheel with pip into the folder."""
        words = [sys.executable, "-m", "pip", "install", "--no-index", "--target", self.room / "to", SOURCE]
        return subprocess.run(words, env=environment(**variables), capture_output=True, text=True, timeout=300)

    @unittest.skipUnless(HAS_PIP, "pip is not installed")
    def test_install(self) -> None:
        done = self.build(DRILLOLIVE_LIBRARY=self.library)
        self.assertEqual(done.returncode, 0, done.stderr)
        code = "import drillolive, sys\nprint(drillolive.__version__, drillolive.__file__)\n"
        code += "print(len(drillolive.Mesh.from_obj(sys.argv[1]).refine(2).points))\n"
        words = [sys.executable, "-c", code, EXAMPLES / "cube.obj"]
        told = subprocess.run(words, env=environment(PYTHONPATH=str(self.room / "to")), capture_output=True, text=True)
        path = self.room / "to" / "drillolive" / "__init__.py"
        self.assertEqual(told.stdout, f"{drillolive.__version__} {path}\n98\n", told.stderr)
        self.assertTrue((self.room / "to" / "bin" / "drillolive").is_file())

    @unittest.skipUnless(HAS_PIP, "pip is not installed")
    def test_without_library(self) -> None:
        done = self.build(DRILLOLIVE_LIBRARY=str(self.room / "missing.so"))
        self.assertNotEqual(done.returncode, 0)
        self.assertIn(f"The library {self.room / 'missing.so'} is not built: run `./far --install PREFIX`", done.stderr)
        self.assertNotIn("Traceback", done.stderr)

    def test_contents(self) -> None:
        os.environ["DRILLOLIVE_LIBRARY"], before = self.library, os.environ.get("DRILLOLIVE_LIBRARY")
        try:
            name = backend().build_wheel(str(self.room))
            first = (self.room / name).read_bytes()
            backend().build_wheel(str(self.room))
        finally:
            os.environ.pop("DRILLOLIVE_LIBRARY") if before is None else os.environ.update(DRILLOLIVE_LIBRARY=before)
        self.assertEqual(name, f"drillolive-{drillolive.__version__}-py3-none-linux_x86_64.whl")
        self.assertEqual((self.room / name).read_bytes(), first)
        with zipfile.ZipFile(self.room / name) as wheel:
            held = {path: wheel.read(path) for path in wheel.namelist()}
        info = f"drillolive-{drillolive.__version__}.dist-info"
        self.assertIn("drillolive/py.typed", held)
        self.assertEqual(held["drillolive/libdrillolive.so"], Path(self.library).read_bytes())
        self.assertIn(b"drillolive = drillolive.command.main:main\n", held[f"{info}/entry_points.txt"])
        listed = [line.split(",")[0] for line in held[f"{info}/RECORD"].decode().splitlines()]
        self.assertEqual(sorted(listed), sorted(held))
        sources = {path.relative_to(SOURCE).as_posix() for path in (SOURCE / "drillolive").rglob("*.py")}
        self.assertLessEqual(sources, set(held))
        self.assertFalse([path for path in held if "__pycache__" in path])


if __name__ == "__main__":
    unittest.main()
