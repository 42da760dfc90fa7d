"""Tests of the commands `limit`, `levels`, `sparse`, `table` and `frames`."""

from __future__ import annotations

import unittest
from fractions import Fraction

from command_runs import FolderTest, words_of
from support import EXAMPLES

from drillolive import Mesh, Table, run

CUBE, DOG = EXAMPLES / "cube.obj", EXAMPLES / "dog.obj"


class Limit(FolderTest):
    def test_limit_points_are_those_of_the_program(self) -> None:
        for name in ("cube", "octahedron", "canopy"):
            path = EXAMPLES / f"{name}.obj"
            with self.subTest(name):
                expected = run(["limit", "depth=2"], path.read_bytes()).text
                exact = self.done("limit", "-d", 2, "--exact", path)
                self.assertEqual(exact.lines("v"), words_of(expected, "v"))
                self.assertEqual(exact.lines("f"), words_of(expected, "f"))
                doubles = [[str(float(Fraction(word))) for word in words] for words in words_of(expected, "v")]
                ended = self.done("limit", "-d", 2, path).lines("v")
                self.assertEqual([[str(float(word)) for word in words] for words in ended], doubles)

    def test_texture_is_that_of_the_level(self) -> None:
        path = EXAMPLES / "seamed_cube.obj"
        for mode in ("smooth", "linear"):
            limit, level = (self.done(name, "-d", 2, "--uv", mode, path) for name in ("limit", "refine"))
            self.assertEqual((limit.lines("vt"), limit.lines("f")), (level.lines("vt"), level.lines("f")))
            self.assertNotEqual(limit.lines("v"), level.lines("v"))

    def test_a_point_without_a_limit(self) -> None:
        mesh = self.file("crease.obj", CUBE.read_text() + "t crease 2/1/0 0 1 5\n")
        self.assertIn("point 1 of the level is semi-sharp. ", self.refused("limit", "-d", 1, mesh))


class Levels(FolderTest):
    def test_counts_are_those_of_the_program(self) -> None:
        for path in (CUBE, DOG, EXAMPLES / "creased_cube.obj"):
            with self.subTest(path.name):
                rows = [line.split() for line in self.done("levels", "-d", 3, path).text.splitlines()]
                lines = [line.split()[1::2] for line in run(["levels", "depth=3"], path.read_bytes()).text.splitlines()]
                self.assertEqual([[word.replace(",", "") for word in row] for row in rows[1:]], lines)
        text = self.done("levels", "-d", 5, DOG).text
        self.assertEqual(len({len(line) for line in text.splitlines()}), 1)
        self.assertEqual(text.split()[:4], ["level", "points", "edges", "faces"])
        self.assertIn(f"{int(lines_of_faces(5)):,}", text)

    def test_refusals(self) -> None:
        mesh = self.file("flipped.obj", "v 0 0 0\nv 1 0 0\nv 0 1 0\nv 1 1 0\nf 1 2 3\nf 1 2 4\n")
        for command in ("levels", "sparse"):
            line = self.refused(command, "-d", 1, mesh)
            self.assertIn(f"{mesh}: lines 5 and 6: both faces go from point 1 to point 2", line)
        self.assertIn("level 10 has 6291456 faces. Refine fewer times", self.refused("levels", "-d", 10, CUBE))


def lines_of_faces(depth: int) -> str:
    """Returns how many faces the dog has at a depth, in the words of the program."""
    return run(["levels", f"depth={depth}"], DOG.read_bytes()).text.splitlines()[-1].split()[7]


class Sparse(FolderTest):
    def test_text_is_that_of_the_program(self) -> None:
        cube = EXAMPLES / "seamed_cube.obj"
        data = cube.read_bytes()
        cases = [
            (["sparse", "depth=2"], []),
            (["sparse", "depth=2", "select=all"], ["--select", "all"]),
            (["sparse", "depth=2", "uv=corners"], ["--uv", "corners"]),
        ]
        for words, options in cases:
            with self.subTest(words):
                text = run(words, data).text
                self.assertEqual(self.done("sparse", "-d", 2, "--exact", *options, cube).text, text)
                ended = self.done("sparse", "-d", 2, *options, cube)
                for line, expected in zip(ended.text.splitlines(), text.splitlines()):
                    if line.split()[0] in ("v", "vt"):
                        numbers = [float(Fraction(word)) for word in expected.split()[1:]]
                        self.assertEqual([float(word) for word in line.split()[1:]], numbers)
                    else:
                        self.assertEqual(line, expected)
        rounded = self.done("sparse", "-d", 1, "--digits", 3, "--round", 0, cube)
        self.assertIn(["-0.556", "-0.556", "0.556"], rounded.lines("v"))


    def test_faces_without_texture(self) -> None:
        points = "v 0 0 0\nv 1 0 0\nv 1 1 0\nv 0 1 0\nv 2 0 0\nv 2 1 0\nv -1 0 0\nv -1 1 0\nv -2 0.5 0\n"
        values = "vt 0 0\nvt 1 0\nvt 1 1\nvt 0 1\nvt 2 0\nvt 2 1\n"
        bare, first, last = "f 1 4 8 9 7\n", "f 1/1 2/2 3/3 4/4\n", "f 2/2 5/5 6/6 3/3\n"
        mixed = self.file("mixed.obj", points + values + bare + first + last)
        alone = self.file("alone.obj", points + values + first + last)
        for mode in ("smooth", "linear"):
            sparse = self.done("sparse", "-d", 2, "--uv", mode, "--select", "all", mixed)
            self.assertEqual(sparse.lines("level")[0], "0 points 9 faces 3 texture 6".split())
            levels = sparse.text.split("level ")[1:]
            for depth, level in enumerate(levels):
                expected = self.done("refine", "-d", depth, "--uv", mode, alone).text
                self.assertEqual(values_of_corners(level), values_of_corners(expected))
                self.assertEqual(len(words_of(level, "vt")), int(level.split()[6]))
                plain = [words for words in words_of(level, "f") if "/" not in words[2]]
                self.assertEqual(len(plain), 1 if depth == 0 else 5 * 4 ** (depth - 1))


def values_of_corners(text: str) -> list[list[str]]:
    """Returns the texture value of each corner that has one, in words."""
    values = words_of(text, "vt")
    corners = [word for words in words_of(text, "f") for word in words if "/" in word]
    return [values[int(word.split("/")[1]) - 1] for word in corners]


class Tables(FolderTest):
    def test_text_is_that_of_the_program(self) -> None:
        expected = run(["stencils", "depth=2"], CUBE.read_bytes()).text
        self.assertEqual(self.done("table", "-d", 2, CUBE).text, expected)
        self.done("table", "-d", 2, CUBE, "-o", self.folder / "t.txt")
        self.assertEqual((self.folder / "t.txt").read_text(), expected)
        Mesh.from_obj(CUBE).check_table(2, (self.folder / "t.txt").read_text())

    def test_arrays(self) -> None:
        self.done("table", "-d", 2, DOG, "-o", self.folder / "t.npz")
        self.assertEqual(self.names(), ["t.npz"])
        table, mesh = Table.load(self.folder / "t.npz"), Mesh.from_obj(DOG)
        made = mesh.table(2)
        self.assertEqual(table.shape, made.shape)
        self.assertEqual(list(table.values), list(made.values))
        self.assertEqual(table.exact_row(1000), made.exact_row(1000))


class FramesOfPoses(FolderTest):
    def setUp(self) -> None:
        super().setUp()
        straight, bent = (EXAMPLES / f"arm_{name}.obj" for name in ("straight", "bent"))
        named = "o Arm\nusemtl skin\n" + straight.read_text()
        self.rest = self.file("rest.obj", named)
        points = [[float(word) for word in words] for words in words_of(straight.read_text(), "v")]
        raised = "".join(f"v {x} {y} {z + 0.5}\n" for x, y, z in points)
        # The last pose has no faces, and another has comments and names of its own.
        self.poses = [self.rest, self.file("bent.obj", "o Other\n" + bent.read_text()), self.file("raised.obj", raised)]

    def test_three_poses(self) -> None:
        pattern = self.folder / "out_%04d.obj"
        self.done("frames", "-d", 2, "--normals", self.rest, *self.poses, "-o", pattern)
        self.assertEqual([name for name in self.names() if "out" in name], [f"out_000{n}.obj" for n in (1, 2, 3)])
        faces = "".join(line for line in self.rest.read_text().splitlines(True) if not line.startswith("v "))
        for number, pose in enumerate(self.poses, 1):
            points = "".join(line for line in pose.read_text().splitlines(True) if line.startswith("v "))
            expected = self.done("refine", "-d", 2, "--normals", self.file("pose.obj", points + faces)).text
            frame = (self.folder / f"out_000{number}.obj").read_text()
            for keyword in ("v", "vn"):
                for words, others in zip(words_of(frame, keyword), words_of(expected, keyword)):
                    for word, other in zip(words, others):
                        self.assertAlmostEqual(float(word), float(other), 12)
            kept = [[line for line in text.splitlines() if line[:2] not in ("v ", "vn")] for text in (frame, expected)]
            self.assertEqual(kept[0], kept[1])
            self.assertEqual(len(words_of(frame, "v")), len(words_of(expected, "v")))
            self.assertIn("usemtl skin", kept[0])

    def test_one_pose_needs_no_number(self) -> None:
        self.done("frames", "-d", 1, "--digits", 3, self.rest, self.poses[1], "-o", self.folder / "frame.obj")
        words = words_of((self.folder / "frame.obj").read_text(), "v")
        self.assertEqual(words, [[f"{float(word):.3g}" for word in line] for line in words])

    def test_poses_of_another_mesh(self) -> None:
        other = self.file("other.obj", self.poses[1].read_text().replace("\nf ", "\nf 1 2 3\nf ", 1))
        few = self.file("few.obj", "v 0 0 0\n")
        bad = self.file("bad.obj", "v 0 0 0\nv 0 0 x\n")
        cases = [
            (other, f"{other}: it has other faces than {self.rest}. Export all poses of one mesh in the same way."),
            (few, f"{few}: it has 1 points, and {self.rest} has"),
            (bad, f"{bad}: line 2: bad numeral. "),
        ]
        for pose, expected in cases:
            line = self.refused("frames", "-d", 1, self.rest, pose, "-o", self.folder / "out.obj")
            self.assertIn(expected, line)
        self.assertNotIn("out.obj", self.names())


if __name__ == "__main__":
    unittest.main()
