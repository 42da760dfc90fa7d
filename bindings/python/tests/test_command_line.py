"""Tests of the command line: help, the version, and mistakes, each of which leads on in one line."""

from __future__ import annotations

import os
import struct
import subprocess
import sys
import unittest
from pathlib import Path

from command_runs import PACKAGE, FolderTest, run_here
from support import EXAMPLES, TOP

import drillolive
from drillolive.command.main import COMMANDS

CUBE = EXAMPLES / "cube.obj"


class Help(FolderTest):
    def test_help(self) -> None:
        for words in ([], ["--help"], ["-h"], ["help"]):
            ended = self.done(*words)
            self.assertTrue(ended.text.startswith("usage: drillolive COMMAND"))
            for name in COMMANDS:
                self.assertIn(f"\n  {name} ", ended.text)

    def test_version(self) -> None:
        self.assertEqual(self.done("--version").text, f"drillolive {drillolive.__version__}\n")

    def test_each_command_has_help(self) -> None:
        modules = {path.stem for path in (PACKAGE / "drillolive" / "command").glob("*.py")}
        for name in sorted(COMMANDS.keys() & modules):
            with self.subTest(name), self.assertRaises(SystemExit) as caught:
                run_here(name, "--help")
            self.assertEqual(caught.exception.code, 0)


class Mistakes(FolderTest):
    def test_words_that_are_not_understood(self) -> None:
        existing = self.file("there.obj", CUBE.read_bytes())
        cases = [
            (["depth=2", CUBE], "depth=2 is not understood. Say -d 2, as in drillolive refine -d 2"),
            (["refine", "depth=2", CUBE], "depth=2 is not understood. Say -d 2."),
            (["refine", "-d", "2", "decimals=6"], "decimals=6 is not understood. Say --digits 6, or --round 6."),
            (["refine", "-d", "2", "uv=corners"], "Say --uv corners."),
            (["refine", "-d", "2", "tags=yes"], "Say --tags."),
            (["sparse", "-d", "2", "select=all"], "Say --select all."),
            (["refine", "--depth", "11", CUBE], "--depth: 11 is not a whole number from 0 to 10"),
            (["limit", "--depth", "0", CUBE], "--depth: 0 is not a whole number from 1 to 10"),
            (["refine", "-d", "x"], "x is not a whole number from 0 to 10"),
            (["refine", "-d", "2", "--digits", "18"], "18 is not a whole number from 1 to 17"),
            (["refine", "-d", "2", "--round", "-1"], "--round"),
            (["refine", "--uv", "corner", "-d", "2", CUBE], "Did you mean corners?"),
            (["refine", "--dpeth", "2", "-d", "2", CUBE], "Did you mean --depth?"),
            (["refine", CUBE], "required: -d/--depth. Give the number of steps, as in drillolive refine -d 2."),
            (["refine", "-d", "2", CUBE, existing], "Give one FILE"),
            (["refine", "-d", "2", "--exact", "--digits", "3"], "not allowed with argument --exact"),
            (["refine", "-d", "2", CUBE, "-o", "cube.stl"], "the command writes OBJ text and no .stl file: say cube.obj"),
            (["frames", "-d", "2", CUBE, CUBE, "-o", "%d.glb"], "the command writes OBJ text and no .glb file: say %d.obj"),
            (["refien", "-d", "2", CUBE], "refien is not a command. Did you mean refine?"),
            (["-d", "2", CUBE], "-d is not a command. Say the command first, as in drillolive refine -d 2"),
            ([existing], f"Put a command before the file, as in drillolive refine -d 2 {existing}."),
            (["triangulate", CUBE], "triangulate is not a command. `drillolive --help` lists the commands."),
            (["table", "-d", "1", CUBE, "-o", "t.csv"], "t.csv: a table has no such form. Say -o NAME.npz or -o "),
            (["frames", "-d", "1", CUBE, CUBE, CUBE, "-o", "out.obj"], "Put one number into it, as in -o out_%04d."),
            (["frames", "-d", "1", CUBE, CUBE, "-o", "%d_%d.obj"], "Put one number into it, as in -o out_%04d.obj."),
        ]
        for words, expected in cases:
            with self.subTest(words):
                line = self.refused(*words, status=2)
                self.assertTrue(line.startswith("drillolive: "), line)
                self.assertIn(expected, line)
                self.assertRegex(line, r"[.?]$")

    def test_a_file_may_have_the_name_of_a_word(self) -> None:
        self.file("depth=2", CUBE.read_bytes())
        here = os.getcwd()
        self.addCleanup(os.chdir, here)
        os.chdir(self.folder)
        self.assertEqual(self.done("refine", "-d", 1, "depth=2").text, self.done("refine", "-d", 1, CUBE).text)

    def test_files_that_are_not_read(self) -> None:
        triangle = struct.pack("<12fH", *[0.0] * 12, 0)
        (self.folder / "folder").mkdir()
        self.file("mesh.obj", CUBE.read_bytes())
        cases = [
            ("missing.obj", None, "missing.obj: no such file or directory. Check the name and the folder."),
            ("mash.obj", None, "mesh.obj?"),
            ("nowhere/mesh.obj", None, "There is no folder"),
            ("folder", None, "is a directory. Name a file in this folder."),
            ("part.stl", b"solid part\nfacet normal 0 0 1\n", "this is an STL file, and only OBJ is read. Export"),
            ("binary.stl", b"\0" * 80 + struct.pack("<I", 2) + triangle * 2, "this is an STL file"),
            ("mesh.ply", b"ply\nformat ascii 1.0\n", "this is a PLY file"),
            ("mesh.glb", b"glTF\2\0\0\0", "this is a glTF file"),
            ("wide.obj", "v 0 0 0\n".encode("utf-16"), "this is a text in UTF-16"),
            ("empty.obj", b"", "empty.obj: the file is empty. Export the mesh as an OBJ file of polygons."),
            ("blank.obj", b"\n \n", "the file is empty"),
            ("points.obj", b"v 0 0 0\nv 1 0 0\n", "points.obj: the file has no faces. Export the mesh as an OBJ file"),
            ("words.obj", b"hello\n", "words.obj: line 1: unknown keyword. "),
        ]
        for name, data, expected in cases:
            with self.subTest(name):
                path = self.folder / name if data is None else self.file(name, data)
                self.assertIn(expected, self.refused("refine", "-d", 1, path))

    def test_a_file_of_curves_alone(self) -> None:
        path = self.file("curves.obj", "v 0 0 0\ncurv 0 1 1\n")
        ended = run_here("refine", "-d", 1, path)
        self.assertEqual(ended.status, 1)
        self.assertIn("the file has no faces, and its curves and surfaces are left out", ended.error)

    def test_a_mesh_that_grows_too_large(self) -> None:
        line = self.refused("refine", "-d", 10, EXAMPLES / "dog.obj")
        self.assertIn("faces. ", line)
        self.assertTrue(line.startswith(f"drillolive: {EXAMPLES / 'dog.obj'}: level "), line)


class Script(unittest.TestCase):
    def test_the_script_of_the_checkout(self) -> None:
        script = TOP / "drillolive"
        for folder in (TOP, Path("/")):
            words = [sys.executable, script, "refine", "-d", "1", CUBE]
            ended = subprocess.run(words, cwd=folder, capture_output=True, check=True)
            self.assertEqual(ended.stdout.decode(), run_here("refine", "-d", 1, CUBE).text)


if __name__ == "__main__":
    unittest.main()
