"""Tests of `drillolive check --split`: manifolds that are made of meshes that are none, and their files."""

from __future__ import annotations

import unittest
from random import Random

from command_runs import FolderTest
from plain_faults import CUBE, Face, faulty_faces, grid_faces, is_manifold, obj_text, random_faces
from support import EXAMPLES

from drillolive import Mesh
from drillolive.command.check import split_file
from drillolive.command.faults import faces_of
from drillolive.command.obj_file import read_obj_file
from drillolive.command.split import Split
from drillolive.command.split_text import text_of_split

POINTS = 30
SEVEN = "".join(f"v {number} {number * number} 0\n" for number in range(7))


def split_faces(faces: list[Face]) -> Split:
    """Returns the manifold that is made of faces over 30 points at places of their own."""
    return split_file(read_obj_file(obj_text(((number, 0, 0) for number in range(POINTS)), faces).encode()))


def split_text(text: str) -> str:
    file = read_obj_file(text.encode())
    return text_of_split(file, split_file(file)).decode()


class Meshes(unittest.TestCase):
    def test_random_meshes_become_manifolds(self) -> None:
        random = Random(11)
        several = 0
        for seed in range(400):
            faces = random_faces(random)
            with self.subTest(seed=seed, faces=faces):
                several += not is_manifold(faces)
                self.check_split(faces, split_faces(faces))
        self.assertGreater(several, 300)

    def check_split(self, faces: list[Face], made: Split) -> None:
        new = list(faces_of(made.sizes, made.corners))
        self.assertEqual(Mesh([(0, 0, 0)] * (POINTS + len(made.origins)), new).check(), [])
        self.assertTrue(is_manifold(new))
        self.assertEqual(made.left_out, sorted(sum(faulty_faces(faces), [])))
        kept = [face for number, face in enumerate(faces) if number not in made.left_out]
        sources = [*range(POINTS), *made.origins]
        self.assertEqual([tuple(sources[point] for point in face) for face in new], kept)
        firsts: dict[int, int] = {}
        for point, number in zip(sum(kept, ()), made.corners):
            firsts.setdefault(point, number)
        self.assertTrue(all(point == number for point, number in firsts.items()), "the first keeps its number")
        self.assertEqual(sorted(set(made.corners) - set(range(POINTS))), list(range(POINTS, len(sources))))
        if is_manifold(faces):
            self.assertEqual((made.left_out, made.origins, new), ([], [], faces))

    def test_how_many_points_are_added(self) -> None:
        grid = list(grid_faces(3, 3))
        other = [tuple(point + 6 if point > 1 else point for point in face) for face in CUBE]
        apart = [tuple(point + 7 if point > 0 else point for point in face) for face in CUBE]
        cases = [
            ("a cube", CUBE, 0),
            ("two cubes with a common edge", CUBE + other, 2),
            ("two cubes with a common point", CUBE + apart, 1),
            ("a fin on a grid", grid + [(5, 6, 20)], 2),
            ("a flipped quad inside a grid", grid[:4] + [grid[4][::-1]] + grid[5:], 4),
            ("a doubled quad inside a grid", grid + [grid[4]], 4),
            ("a quad and its other side", [(0, 1, 2, 3), (3, 2, 1, 0)], 0),
            ("three triangles at an edge", [(0, 1, 2), (1, 0, 3), (0, 1, 4)], 2),
            ("a crossing of four quads", [(0, 1, 2, 3), (1, 0, 4, 5), (0, 1, 6, 7), (1, 0, 8, 9)], 2),
            ("two cubes at one place", CUBE + CUBE, 8),
        ]
        for name, faces, count in cases:
            with self.subTest(name):
                self.assertEqual(len(split_faces(faces).origins), count)


class Texts(unittest.TestCase):
    CASES = [
        ("a manifold", "# a  b\r\nv 0 0 0 \nv 1 0 0\nv 1 1 0\ng x\nf -3  -2\t-1 # c\nf 003 2 1", None),
        (
            "a common point",
            SEVEN + "g a\nf 1 2 3\nusemtl b\nf 1 4 5",
            SEVEN + "v 0 0 0\ng a\nf 1 2 3\nusemtl b\nf 8 4 5",
        ),
        (
            "texture, normals, blanks, comments and line ends",
            SEVEN + "vt 0 0\r\nvn 0 0 1\nf 1/1/1\t2/1/1  3/1/1 # 1 2 3\r\nf 4/-1/-1 1/1/1 5/1/1\r\n",
            SEVEN + "v 0 0 0\nvt 0 0\r\nvn 0 0 1\nf 1/1/1\t2/1/1  3/1/1 # 1 2 3\r\nf 4/-1/-1 8/1/1 5/1/1\r\n",
        ),
        (
            "colours",
            "v 0 0 0 1 0.5 0 # red\nv 1 0 0\nv 1 1 0\nv 2 2 0\nv 3 2 0\nf 1 2 3\nf 1//1 4//1 5//1\n",
            "v 0 0 0 1 0.5 0 # red\nv 1 0 0\nv 1 1 0\nv 2 2 0\nv 3 2 0\nv 0 0 0 1 0.5 0 # red\n"
            "f 1 2 3\nf 6//1 4//1 5//1\n",
        ),
        (
            "points between faces, and numbers that count back",
            "v 0 0 0\nv 1 0 0\nv 1 1 0\nf -3 -2 -1\no next\nv 2 2 0\nv 3 2 0\nf 1 -2 -1\n",
            "v 0 0 0\nv 1 0 0\nv 1 1 0\nv 2 2 0\nv 3 2 0\nv 0 0 0\nf 1 2 3\no next\nf 6 4 5\n",
        ),
        (
            "faces before points",
            "f 1 2 3\nf 1 4 5\n" + SEVEN,
            SEVEN + "v 0 0 0\nf 1 2 3\nf 8 4 5\n",
        ),
        (
            "faces that are left out, and holes",
            SEVEN + "f 1 2\nf 3 4 5 3\nf 1 2 3\nf 4 5 6\nt hole 3/0/0 0 3 2\nt hole 1/0/0 1\n",
            SEVEN + "f 1 2 3\nf 4 5 6\nt hole 2/0/0 1 0\n",
        ),
        (
            "tags of points",
            SEVEN + "f 1 2 3\nf 1 4 5\nt corner 2/1/0 0 1 2.5\nt corner 2/2/0 1 0 3 4\nt corner 1/1/0 1 2\n",
            SEVEN + "v 0 0 0\nf 1 2 3\nf 8 4 5\nt corner 2/1/0 0 7 2.5\nt corner 1/1/0 1 2.5\n"
            "t corner 1/1/0 1 3\nt corner 2/1/0 0 7 4\nt corner 1/1/0 1 2\n",
        ),
        (
            "tags of edges",
            SEVEN + "f 1 2 3\nf 1 4 5\nt crease 4/3/0 1 0 3 6 1 2 3\nt crease 2/1/0 3 4 1\n"
            "t interpolateboundary 1/0/0 1\n",
            SEVEN + "v 0 0 0\nf 1 2 3\nf 8 4 5\nt crease 2/1/0 0 1 1\nt crease 2/1/0 3 7 2\nt crease 2/1/0 3 6 3\n"
            "t crease 2/1/0 3 4 1\nt interpolateboundary 1/0/0 1\n",
        ),
        (
            "a doubled edge with a tag",
            SEVEN + "f 1 2 3\nf 2 1 4\nf 1 2 5\nt crease 2/1/0 0 1 3/2\n",
            SEVEN + "v 0 0 0\nv 1 1 0\nf 1 2 3\nf 2 1 4\nf 8 9 5\nt crease 2/1/0 0 1 3/2\nt crease 2/1/0 7 8 3/2\n",
        ),
    ]

    def test_texts(self) -> None:
        for name, text, wanted in self.CASES:
            with self.subTest(name):
                made = split_text(text)
                self.assertEqual(made, text if wanted is None else wanted)
                self.assertEqual(split_text(made), made)
                self.assertEqual(Mesh.from_obj(made.encode()).check(), [])

    def test_examples_stay_as_they_are(self) -> None:
        for path in sorted(EXAMPLES.glob("*.obj")):
            with self.subTest(path.name):
                text = path.read_text()
                self.assertEqual(split_text(text), text)

    def test_random_texts(self) -> None:
        random = Random(3)
        for seed in range(100):
            faces = random_faces(random)
            with self.subTest(seed=seed, faces=faces):
                text = obj_text(((number, number * number, 0) for number in range(POINTS)), faces)
                made = split_text(text)
                self.assertEqual(Mesh.from_obj(made.encode()).check(), [])
                self.assertEqual(split_text(made), made)
                self.assertEqual(places_of_faces(made), [face for face in places_of_faces(text) if is_face(face)])


def is_face(places: list[tuple[str, str, str]]) -> bool:
    return len(places) > 2 and len(set(places)) == len(places)


def places_of_faces(text: str) -> list[list[tuple[str, str, str]]]:
    file = read_obj_file(text.encode())
    return [[file.points[point] for point in face] for face in faces_of(file.face_sizes, file.corners)]


class Command(FolderTest):
    TEXT = SEVEN + "f 1 2 3\nf 1 4 5\nf 1 1 2\n"

    def test_what_is_said(self) -> None:
        ended = self.done("check", "--split", data=self.TEXT.encode())
        self.assertEqual(ended.text, split_text(self.TEXT))
        said = ended.error.splitlines()
        self.assertEqual(len(said), 2)
        self.assertRegex(said[0], r"^drillolive: standard input: 1 face left out, .*: line 10$")
        self.assertRegex(said[1], r"^drillolive: standard input: 1 point parted, 1 point added: point 1$")

    def test_output_file(self) -> None:
        source, path = self.file("in.obj", self.TEXT), self.folder / "out.obj"
        self.assertEqual(self.done("check", "--split", source, "-o", path).text, "")
        self.assertEqual(path.read_text(), split_text(self.TEXT))
        again = self.done("check", "--split", path)
        self.assertEqual(again.text, path.read_text())
        self.assertIn("a manifold", again.error)
        self.assertEqual(self.names(), ["in.obj", "out.obj"])
        self.assertIn("a manifold", self.done("check", path).text)

    def test_a_bad_line(self) -> None:
        line = self.refused("check", "--split", data=b"v 0 0 nan\n" + self.TEXT.encode())
        self.assertIn("line 1: bad numeral", line)


if __name__ == "__main__":
    unittest.main()
