"""Tests that another program, assimp, reads what the command writes."""

from __future__ import annotations

import re
import shutil
import subprocess
import unittest

from command_runs import FolderTest
from support import EXAMPLES

ASSIMP = shutil.which("assimp")


@unittest.skipIf(ASSIMP is None, "assimp is not installed")
class Assimp(FolderTest):
    def report(self, name: str) -> str:
        """Returns what assimp tells of a file, as it stands there."""
        command = [str(ASSIMP), "info", str(self.folder / name), "--raw"]
        return subprocess.run(command, capture_output=True, check=True).stdout.decode()

    def test_counts_and_the_bounding_box(self) -> None:
        normals = ["--normals"]
        for name, options in (("cube", []), ("dog", normals), ("unfolded_cube", normals), ("octahedron", [])):
            with self.subTest(name):
                ended = self.done("refine", "-d", 2, *options, EXAMPLES / f"{name}.obj")
                (self.folder / "out.obj").write_text(ended.text)
                told = self.report("out.obj")
                faces = ended.lines("f")
                self.assertEqual(number_of(told, "Faces"), len(faces))
                # The program makes a point of each corner.
                self.assertEqual(number_of(told, "Vertices"), sum(map(len, faces)))
                points = [[float(word) for word in words] for words in ended.lines("v")]
                used = [points[int(word.split("/")[0]) - 1] for words in faces for word in words]
                for label, bound in (("Minimum point", min), ("Maximum point", max)):
                    for axis, number in enumerate(numbers_of(told, label)):
                        self.assertAlmostEqual(number, bound(point[axis] for point in used), 4)

    def test_names_are_read(self) -> None:
        square = "v 0 0 0\nv 1 0 0\nv 1 1 0\nv 0 1 0\n"
        text = f"{square}o First\nusemtl red\nf 1 2 3 4\n{square}o Second\nusemtl blue\nf 5 6 7 8\n"
        mesh = self.folder / "two.obj"
        mesh.write_text(text)
        self.done("refine", "-d", 2, mesh, "-o", self.folder / "out.obj")
        told = self.report("out.obj")
        self.assertEqual(number_of(told, "Meshes"), 2)
        self.assertIn("First", told)
        self.assertIn("Second", told)

    def test_its_own_export_is_refined(self) -> None:
        mesh = self.folder / "in.obj"
        self.done("refine", "-d", 1, EXAMPLES / "cube.obj", "-o", mesh)
        subprocess.run([str(ASSIMP), "export", mesh, self.folder / "out.obj"], capture_output=True, check=True)
        ended, expected = (self.done("refine", "-d", 2, path) for path in (self.folder / "out.obj", mesh))
        for keyword in ("v", "f"):
            self.assertEqual(len(ended.lines(keyword)), len(expected.lines(keyword)))
        for axis in range(3):
            coordinates, others = (sorted(float(words[axis]) for words in run.lines("v")) for run in (ended, expected))
            for coordinate, other in zip(coordinates, others):
                self.assertAlmostEqual(coordinate, other, 5)


def number_of(told: str, label: str) -> int:
    """Returns the number behind a label."""
    match = re.search(rf"^{label}:\s+(\d+)", told, re.MULTILINE)
    assert match, told
    return int(match[1])


def numbers_of(told: str, label: str) -> list[float]:
    """Returns the three numbers behind a label."""
    match = re.search(rf"^{label}\s+\((.*)\)", told, re.MULTILINE)
    assert match, told
    return [float(word) for word in match[1].split()]


if __name__ == "__main__":
    unittest.main()
