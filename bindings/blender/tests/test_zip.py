"""The zip: it is made, installed and enabled in a clean profile."""

from __future__ import annotations

import json
import os
import shutil
import subprocess
import sys
import tempfile
import unittest
import zipfile
from pathlib import Path

import bpy

HERE = Path(__file__).resolve().parent
BUILD = HERE.parent / "build_addon.py"


def run(words: list[str], **variables: str) -> str:
    """Runs a command without the variables that lead to a library or a package, and returns what it prints."""
    kept = {name: value for name, value in os.environ.items() if not name.startswith(("DRILLOLIVE", "PYTHON"))}
    done = subprocess.run(words, env={**kept, **variables}, stdout=subprocess.PIPE, stderr=subprocess.STDOUT, text=True)
    if done.returncode:
        raise AssertionError(done.stdout)
    return done.stdout


class Zips(unittest.TestCase):
    """The zip that build_addon.py makes."""

    def make(self, folder: str) -> Path:
        """Returns the path of a new zip in a folder."""
        target = Path(folder) / "drillolive_blender.zip"
        held = {name: value for name, value in os.environ.items() if name == "DRILLOLIVE_LIBRARY"}
        lines = run([sys.executable, str(BUILD), "-o", str(target)], **held)
        self.assertEqual(lines.split(), [str(target)])
        return target

    def install(self, made: Path, prefix: Path) -> Path:
        """Puts the package and the library of a zip where `./far --install` puts them. It returns the package."""
        package = prefix / "share" / "drillolive" / "python" / "drillolive"
        with tempfile.TemporaryDirectory() as folder:
            zipfile.ZipFile(made).extractall(folder)
            shutil.copytree(Path(folder) / "drillolive_blender" / "carried" / "drillolive", package)
        (prefix / "lib").mkdir()
        shutil.move(package / "libdrillolive.so", prefix / "lib")
        return package

    def test_content(self) -> None:
        """The zip has the add-on, the package, the library and the licences, and is the same each time."""
        with tempfile.TemporaryDirectory() as first, tempfile.TemporaryDirectory() as second:
            target = self.make(first)
            self.assertEqual(target.read_bytes(), self.make(second).read_bytes())
            names = set(zipfile.ZipFile(target).namelist())
        for name in ("__init__.py", "operator.py", "carried/drillolive/__init__.py", "LICENSE"):
            with self.subTest(file=name):
                self.assertIn(f"drillolive_blender/{name}", names)
        self.assertIn("drillolive_blender/carried/drillolive/libdrillolive.so", names)
        self.assertFalse([name for name in names if not name.startswith("drillolive_blender/") or "test" in name])

    def test_clean_profile(self) -> None:
        """In a clean profile the zip is all that a user needs, or the folder of the preferences."""
        with tempfile.TemporaryDirectory() as name:
            folder = Path(name).resolve()
            made, prefix = self.make(name), folder / "prefix"
            package = self.install(made, prefix)
            words = [bpy.app.binary_path, "-b", "--factory-startup", "--python-exit-code", "1"]
            words += ["--python", str(HERE / "in_profile.py"), "--", str(made), str(prefix)]
            variables = {"BLENDER_USER_SCRIPTS": f"{folder}/scripts", "BLENDER_USER_CONFIG": f"{folder}/config"}
            lines = run(words, **variables).splitlines()
            told = json.loads(next(line for line in lines if line.startswith("told ")).partition(" ")[2])
        add_on = folder / "scripts" / "addons" / "drillolive_blender"
        self.assertEqual(Path(told["add_on"]), add_on / "__init__.py")
        self.assertEqual(Path(told["package"]), add_on / "carried" / "drillolive" / "__init__.py")
        self.assertEqual(Path(told["package_of_folder"]), package / "__init__.py")
        self.assertEqual((told["faces"], told["faces_of_folder"], told["is_gone"]), (24, 96, True))
        for number in told["point"]:
            self.assertAlmostEqual(abs(number), 5 / 9, 6)
