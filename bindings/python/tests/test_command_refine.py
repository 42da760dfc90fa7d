"""Tests of the command `refine`: numbers, texture, colours, names and tags."""

from __future__ import annotations

import math
import unittest
from fractions import Fraction

from command_runs import FolderTest, run_here, words_of
from support import EXAMPLES

from drillolive import run
from drillolive.command.numbers import BLOCK

NAMES = {"o", "g", "s", "usemtl", "mtllib"}

# Three faces: the first two with texture and red to green points, the last with neither.
MIXED = """\
mtllib colours.mtl more.mtl
o Left Wing
v -1 0 0 1 0 0
v 0 0 0 1 0 0
v 0 1 0 0 1 0
v -1 1 0 0 1 0
v -2 0 0.5 0.25 0 0.5
v -2 1 0.5 0.25 0 0.5
vt 0 0
vt 1 0
vt 1 1
vt 0 1
vt -1 0
vt -1 1
usemtl Red #1
s off
f 1/1 2/2 3/3 4/4
g tip
f 5/5 1/1 4/4 6/6
o Right
v 1 0 0 1 1 1
v 1 1 0 1 1 1
usemtl Blue
s 1
f 2 7 8 3
"""


class Numbers(FolderTest):
    def test_exact_text_is_that_of_the_program(self) -> None:
        for path in sorted(EXAMPLES.glob("*.obj")):
            for depth in (0, 1, 2):
                with self.subTest(path.name, depth=depth):
                    text = path.read_bytes()
                    expected = run(["refine", f"depth={depth}", "uv=boundaries"], text).text
                    ended = self.done("refine", "-d", depth, "--exact", path)
                    kept = [line for line in ended.text.splitlines() if line.split()[0] not in NAMES]
                    self.assertEqual(kept, expected.splitlines())

    def test_default_numbers_are_the_nearest_doubles(self) -> None:
        for path in sorted(EXAMPLES.glob("*.obj")):
            with self.subTest(path.name):
                exact = self.done("refine", "-d", 2, "--exact", path)
                ended = self.done("refine", "-d", 2, path)
                for keyword in ("v", "vt"):
                    expected = [[float(Fraction(word)) for word in words] for words in exact.lines(keyword)]
                    self.assertEqual([[float(word) for word in words] for words in ended.lines(keyword)], expected)
                self.assertEqual(ended.lines("f"), exact.lines("f"))
                for word in (word for line in ended.lines("v") for word in line):
                    self.assertEqual(word, repr(float(word)).removesuffix(".0"))
                    self.assertNotEqual(word, "-0")

    def test_digits(self) -> None:
        exact = self.done("refine", "-d", 2, "--exact", EXAMPLES / "cube.obj")
        for digits in (1, 3, 9, 17):
            ended = self.done("refine", "-d", 2, "--digits", digits, EXAMPLES / "cube.obj")
            expected = [[f"{float(Fraction(word)):.{digits}g}" for word in words] for words in exact.lines("v")]
            self.assertEqual(ended.lines("v"), expected)

    def test_more_lines_than_are_made_at_once(self) -> None:
        ended = self.done("refine", "-d", 3, EXAMPLES / "dog.obj")
        expected = run(["refine", "depth=3"], (EXAMPLES / "dog.obj").read_bytes()).text
        self.assertGreater(len(ended.lines("v")), BLOCK)
        self.assertEqual(ended.lines("f"), words_of(expected, "f"))
        self.assertEqual(len(ended.lines("v")), len(words_of(expected, "v")))

    def test_round(self) -> None:
        points = "v 0.125 0 1/3\nv 1e0 0.0 0\nv 1 1.0004 0\nv 0 1 -0.375\n"
        mesh = self.file("mesh.obj", points + "vt 0.125 0\nf 1/1 2/1 3/1 4/1\n")
        ended = self.done("refine", "-d", 0, "--round", 2, "--exact", mesh)
        words = [["3/25", "0", "33/100"], ["1", "0", "0"], ["1", "1", "0"], ["0", "1", "-19/50"]]
        self.assertEqual(ended.lines("v"), words)
        self.assertEqual(ended.lines("vt")[0], ["1/8", "0"])
        self.assertIn("4 of 12 coordinates were rounded to 2 decimals", ended.error)
        # A number that is too fine to be read is read where it is rounded.
        fine = self.file("fine.obj", "v 1e-40 0 0\nv 1 0 0\nv 0 1 0\nf 1 2 3\n")
        self.assertIn("line 1: number out of range", self.refused("refine", "-d", 0, fine))
        self.assertEqual(self.done("refine", "-d", 0, "--round", 3, fine).lines("v")[0], ["0", "0", "0"])


class Names(FolderTest):
    def test_names_come_through(self) -> None:
        mesh = self.file("mixed.obj", MIXED)
        # The lines before the faces, and how many faces there are, of each part of the file.
        parts = [
            (["o Left Wing", "usemtl Red #1", "s off"], 1),
            (["g tip"], 1),
            (["o Right", "usemtl Blue", "s 1"], 1),
        ]
        for depth, children in ((0, 1), (1, 4), (2, 16)):
            with self.subTest(depth=depth):
                text = self.done("refine", "-d", depth, mesh).text
                kept = [line for line in text.splitlines() if line.split()[0] not in ("v", "vt")]
                expected = ["mtllib colours.mtl more.mtl"]
                for lines, faces in parts:
                    expected += lines + ["f"] * faces * children
                self.assertEqual(["f" if line.startswith("f ") else line for line in kept], expected)

    def test_faces_of_other_sizes_keep_their_names(self) -> None:
        points = "v 0 0 0\nv 1 0 0\nv 1 1 0\nv 0 1 0\nv 2 0.5 0\nv -1 0 0\nv -1 1 0\nv -2 0.5 0\n"
        mesh = self.file("sizes.obj", points + "g a\nf 1 2 3 4\ng b\nf 2 5 3\ng c\nf 1 4 7 8 6\ng a\nf 2 1 6\n")
        for depth, counts in ((0, [1, 1, 1, 1]), (1, [4, 3, 5, 3]), (2, [16, 12, 20, 12])):
            text = self.done("refine", "-d", depth, mesh).text
            groups: list[list[str]] = []
            for line in text.splitlines():
                if line.startswith("g "):
                    groups.append([])
                if line.startswith("f "):
                    groups[-1].append(line)
            self.assertEqual([len(group) for group in groups], counts)
            self.assertEqual([line.split()[1] for line in text.splitlines() if line[0] == "g"], ["a", "b", "c", "a"])

    def test_a_hole_is_left_out_with_its_names(self) -> None:
        cube = (EXAMPLES / "holed_cube.obj").read_text()
        faces = [line for line in cube.splitlines() if line.startswith("f ")]
        named = cube
        for number, line in enumerate(faces):
            named = named.replace(line, f"usemtl m{number}\n{line}")
        ended = self.done("refine", "-d", 1, self.file("holed.obj", named))
        self.assertEqual(ended.lines("usemtl"), [["m0"], ["m1"], ["m2"], ["m4"], ["m5"]])
        self.assertEqual(len(ended.lines("f")), 20)
        with_tags = self.done("refine", "-d", 1, "--tags", self.folder / "holed.obj")
        self.assertEqual(len(with_tags.lines("usemtl")), 6)

    def test_names_that_are_no_text(self) -> None:
        mesh = self.file("bytes.obj", b"o caf\xe9\nv 0 0 0\nv 1 0 0\nv 0 1 0\nf 1 2 3\n")
        self.done("refine", "-d", 1, mesh, "-o", self.folder / "out.obj")
        self.assertIn(b"o caf\xe9\n", (self.folder / "out.obj").read_bytes())


class Tags(FolderTest):
    def test_tags_are_those_of_the_program(self) -> None:
        crease = "t crease 3/1/0 1 3 5 3/2\nt corner 1/1/0 0 2\nt creasemethod 0/0/1 chaikin\nt hole 1/0/0 3\n"
        cube = (EXAMPLES / "seamed_cube.obj").read_text() + crease
        mesh = self.file("tagged.obj", cube)
        for depth in (0, 1, 2):
            with self.subTest(depth=depth):
                words = ["refine", f"depth={depth}", "tags=yes", "uv=boundaries"]
                ended = self.done("refine", "-d", depth, "--tags", "--exact", mesh)
                self.assertEqual(ended.text, run(words, cube.encode()).text)

    def test_the_text_goes_on_from_where_it_was(self) -> None:
        mesh = self.file("cube.obj", (EXAMPLES / "creased_cube.obj").read_bytes())
        once = self.done("refine", "-d", 1, "--tags", "--exact", mesh).text
        twice = self.done("refine", "-d", 1, "--exact", self.file("once.obj", once)).text
        self.assertEqual(twice, self.done("refine", "-d", 2, "--exact", mesh).text)


class Texture(FolderTest):
    def test_modes_are_those_of_the_program(self) -> None:
        for name in ("seamed_cube", "unfolded_cube"):
            text = (EXAMPLES / f"{name}.obj").read_bytes()
            for mode in ("smooth", "corners", "boundaries", "linear"):
                with self.subTest(name, mode=mode):
                    expected = run(["refine", "depth=2", f"uv={mode}"], text).text
                    ended = self.done("refine", "-d", 2, "--uv", mode, "--exact", EXAMPLES / f"{name}.obj")
                    self.assertEqual(ended.text, expected)
            plain = self.done("refine", "-d", 2, "--uv", "none", "--exact", EXAMPLES / f"{name}.obj")
            lines = [line.split() for line in text.splitlines() if line[:2] != b"vt"]
            without = b"\n".join(b" ".join(word.split(b"/")[0] for word in line) for line in lines)
            self.assertEqual(plain.text, run(["refine", "depth=2"], without).text)

    def test_faces_without_texture_leave_that_of_others(self) -> None:
        mixed = self.file("mixed.obj", MIXED)
        # The same mesh without its last face has the same texture, since its rim is a seam in the other.
        alone = self.file("alone.obj", MIXED.replace("f 2 7 8 3\n", ""))
        for mode in ("smooth", "corners", "boundaries", "linear"):
            for depth in (0, 1, 2):
                with self.subTest(mode, depth=depth):
                    ended = self.done("refine", "-d", depth, "--uv", mode, mixed)
                    expected = self.done("refine", "-d", depth, "--uv", mode, alone)
                    self.assertEqual(textured_faces(ended.text), textured_faces(expected.text))
                    self.assertEqual(sorted(ended.lines("vt")), sorted(expected.lines("vt")))
                    plain = [words for words in ended.lines("f") if "/" not in words[0]]
                    self.assertEqual(len(plain), 4 ** depth)
        dropped = self.done("refine", "-d", 1, "--uv", "none", mixed)
        self.assertEqual((dropped.lines("vt"), "/" in dropped.text), ([], False))

    def test_stand_in_values_are_no_values_of_the_file(self) -> None:
        # Corners with normals alone have no texture, and negative numbers count the values of the file.
        text = MIXED.replace("f 2 7 8 3", "vn 0 0 1\nf 2//1 7//1 8//1 3//1")
        text = text.replace("f 5/5 1/1 4/4 6/6", "f 5/-2 1/-6 4/-3 6/-1")
        ended = self.done("refine", "-d", 1, self.file("normals.obj", text))
        self.assertEqual(ended.text, self.done("refine", "-d", 1, self.file("mixed.obj", MIXED)).text)


class Colours(FolderTest):
    def test_colours_are_refined_as_points_are(self) -> None:
        dog = (EXAMPLES / "dog.obj").read_text().splitlines()
        rows = [line.split()[1:4] for line in dog if line.startswith("v ")]
        colours = [[f"{abs(float(word)) % 1:.6f}" for word in reversed(row)] for row in rows]
        rest = [line for line in dog if not line.startswith("v ")]
        coloured = [" ".join(["v", *row, *colour]) for row, colour in zip(rows, colours)]
        mesh = self.file("coloured.obj", "\n".join(coloured + rest) + "\n")
        of_colours = self.file("colours.obj", "\n".join([" ".join(["v", *colour]) for colour in colours] + rest) + "\n")
        for command, depth, form in (("refine", 2, ()), ("refine", 1, ("--exact",)), ("limit", 1, ("--digits", 5))):
            with self.subTest(command, depth=depth):
                ended = self.done(command, "-d", depth, *form, mesh)
                points = self.done(command, "-d", depth, *form, EXAMPLES / "dog.obj").lines("v")
                expected = self.done(command, "-d", depth, *form, of_colours).lines("v")
                self.assertEqual(ended.lines("v"), [point + colour for point, colour in zip(points, expected)])

    def test_points_near_points_without_a_colour_have_none(self) -> None:
        mesh = self.file("some.obj", MIXED.replace("v 1 0 0 1 1 1", "v 1 0 0").replace("v 1 1 0 1 1 1", "v 1 1 0"))
        lengths = [len(words) for words in self.done("refine", "-d", 0, mesh).lines("v")]
        self.assertEqual(lengths, [6] * 6 + [3] * 2)
        ended = self.done("refine", "-d", 1, mesh)
        whole = self.done("refine", "-d", 1, self.file("mixed.obj", MIXED))
        lengths = [len(words) for words in ended.lines("v")]
        # Points 2, 3, 7 and 8, the last face, its three new edges and the edge between it and the first one.
        self.assertEqual(lengths.count(3), 9)
        for some, all_of_it in zip(ended.lines("v"), whole.lines("v")):
            self.assertEqual(some, all_of_it[: len(some)])

    def test_colours_that_do_not_fit(self) -> None:
        mesh = self.file("fine.obj", "v 0 0 0 1e-36 0 0\nv 1 0 0 0 0 0\nv 0 1 0 0 0 0\nf 1 2 3\n")
        self.assertIn("the colours of points: ", self.refused("refine", "-d", 2, mesh))


class Normals(FolderTest):
    def test_normals_of_a_cube(self) -> None:
        for form in ((), ("--exact",), ("--digits", 9)):
            ended = self.done("refine", "-d", 0, "--normals", *form, EXAMPLES / "cube.obj")
            points = [[float(word) for word in words] for words in ended.lines("v")]
            normals = [[float(word) for word in words] for words in ended.lines("vn")]
            third = 1 / math.sqrt(3)
            for point, normal in zip(points, normals):
                for coordinate, part in zip(point, normal):
                    self.assertAlmostEqual(part, math.copysign(third, coordinate), 8)
            for words in ended.lines("f"):
                self.assertEqual([word.split("/")[0] for word in words], [word.split("/")[2] for word in words])

    def test_normals_are_weighted_by_area(self) -> None:
        # A fan of a large triangle in z = 0, and a small one in x = 0.
        mesh = self.file("fan.obj", "v 0 0 0\nv 4 0 0\nv 0 2 0\nv 0 0 1\nf 1 2 3\nf 1 3 4\nv 9 9 9\n")
        ended = self.done("refine", "-d", 0, "--normals", mesh)
        normals = [[float(word) for word in words] for words in ended.lines("vn")]
        both = [2 / math.sqrt(68), 0, 8 / math.sqrt(68)]
        for normal, expected in zip(normals, [both, [0, 0, 1], both, [1, 0, 0], [0, 0, 0]]):
            for part, other in zip(normal, expected):
                self.assertAlmostEqual(part, other, 15)

    def test_normals_with_texture(self) -> None:
        ended = self.done("refine", "-d", 1, "--normals", EXAMPLES / "seamed_cube.obj")
        plain = self.done("refine", "-d", 1, EXAMPLES / "seamed_cube.obj")
        self.assertEqual(len(ended.lines("vn")), len(ended.lines("v")))
        expected = [[f"{word}/{word.split('/')[0]}" for word in words] for words in plain.lines("f")]
        self.assertEqual(ended.lines("f"), expected)


class Lines(FolderTest):
    def test_continued_lines(self) -> None:
        text = (EXAMPLES / "unfolded_cube.obj").read_text()
        continued = text.replace("f 1/", "f \\\n 1/").replace(" 8/", "\\\r\n8/")
        continued = continued.replace("v -1 -1 1", "v -1 \\\n-1 \\\n1")
        ended = self.done("refine", "-d", 2, self.file("continued.obj", continued))
        self.assertEqual(ended.text, self.done("refine", "-d", 2, EXAMPLES / "unfolded_cube.obj").text)
        self.assertEqual(ended.error, "")

    def test_curves_are_passed_over(self) -> None:
        curves = "vp 0 1\ncstype bspline\ndeg 3\ncurv 0 4 1 2 \\\n 3 4\nparm u 0 0 \\\n 1 1\nend\n"
        curves += "l 1 2\nl 2 3\nl 3 4\np 1\n"
        ended = self.done("refine", "-d", 1, self.file("curves.obj", curves + (EXAMPLES / "cube.obj").read_text()))
        self.assertEqual(ended.text, self.done("refine", "-d", 1, EXAMPLES / "cube.obj").text)
        numbers = {"vp": 1, "cstype": 2, "deg": 3, "curv": 4, "parm": 6, "end": 8, "l": 9, "p": 12}
        expected = [f"warning: line {number}: {word} is left out" for word, number in numbers.items()]
        self.assertEqual(ended.error.splitlines(), expected + ["warning: l is left out on 2 more lines"])

    def test_a_fault_is_told_in_the_lines_of_the_file(self) -> None:
        square = "# a\nv 0 0 0\nv 1 0 0\nv 1 1 \\\n0\nv 0 1 0\ncurv 1 2\n"
        cases = [
            ("f 1 2 3 4\nv 0 nan 0\n", "line 9: bad numeral"),
            ("f 1 2 \\\n 3\nf 1 2 9\n", "line 10: index out of range"),
            ("f 1 2 x\n", "line 8: bad face corner"),
            ("f 1 2 3\nfo 1 2 3\n", "line 9: unknown keyword"),
            ("\nf 1 2\n", "line 9: this face has fewer than three corners"),
            ("f 1 2 3\nf 1 2 1\n", "line 9: this face repeats a point"),
            ("f 1 2 3\nf 1 2 4\n", "lines 8 and 9: both faces go from point 1 to point 2, so that one of them is"),
            ("v 0 0 9\nv 9 9 9\nf 1 2 3\nf 1 5 6\n", "line 2: point 1 joins 2 fans of faces, which meet only there: "),
            ("f 1 2 3 4 \\", "line 8: line continuation"),
        ]
        for text, expected in cases:
            with self.subTest(text):
                mesh = self.file("bad.obj", square + text)
                ended = run_here("refine", "-d", 1, mesh)
                self.assertEqual((ended.status, ended.text), (1, ""))
                # A warning may stand before it.
                line = ended.error.splitlines()[-1]
                self.assertTrue(line.startswith(f"drillolive: {mesh}: {expected}"), line)
                self.assertRegex(line[len(f"drillolive: {mesh}: {expected}") :], r"^.*\. [A-Z].*\.$")


def textured_faces(text: str) -> list[list[list[str]]]:
    """Returns the value of each corner of the faces with texture, in words."""
    values = words_of(text, "vt")
    faces = [[word.split("/") for word in words] for words in words_of(text, "f") if "/" in words[0]]
    return [[values[int(value) - 1] for _, value in corners] for corners in faces]


if __name__ == "__main__":
    unittest.main()
