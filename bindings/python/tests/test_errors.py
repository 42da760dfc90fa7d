"""Refusals: each exception with its cause, its numbers and its advice."""

from __future__ import annotations

import unittest
from fractions import Fraction
from typing import Any, Callable

from support import CUBE_FACES, CUBE_POINTS, cube, example, run_python

import drillolive
from drillolive import Mesh
from drillolive._calls import call
from drillolive.arrays import numpy
from drillolive.errors import STATUSES

NAN, INFINITE = float("nan"), float("inf")
TRIANGLE = [(0, 1, 2)]
BOWTIE = [(0, 1, 2), (0, 3, 4)]
FLAT = [(number, 0, 0) for number in range(8)]


def wide_fan(corners: int) -> Mesh:
    """Returns a mesh of one face with so many corners."""
    return Mesh([(number, 0, 0) for number in range(corners)], [range(corners)])


def crease_end() -> Mesh:
    """Returns a cube on which one sharp crease ends at a point."""
    return cube(creases=[(0, 1, INFINITE)])


def sharp_chaikin() -> Mesh:
    """Returns a cube whose creases have fractions that grow with each step of the method chaikin."""
    fine = 1 + 2.0**-52
    return cube(method="chaikin", creases=[(0, 1, fine), (1, 3, 9 - fine), (3, 2, 3 * fine), (2, 0, fine / 3)])


# What is called, the exception, the status, the kind, both numbers, and words of the line and of the advice.
# None stands for what is not looked at.
LIBRARY_CASES: list[Any] = [
    (lambda: Mesh.from_obj(b"v 0 0\n"), "ObjError", "obj", 4, (1, 0), "line 1: line too short", "too few words"),
    (lambda: Mesh.from_obj(b"\n\nV 0 0 0\n"),
     "ObjError", "obj", 2, (3, 0), "line 3: unknown keyword", "remove this line"),
    (lambda: Mesh.from_obj(b"v 0 0 x"), "ObjError", "obj", 0, (1, 0), "bad numeral", "nan and inf are no numbers"),
    (lambda: Mesh(FLAT, BOWTIE).refine(1),
     "MeshError", "mesh", 4, (0, None), "vertex 0 joins more than one fan", "Split this point"),
    (lambda: Mesh(FLAT, [(0, 1, 2), (0, 1, 3)]).table(1), "MeshError", "mesh", 3, (0, 1), "edge", "Flip one"),
    (lambda: Mesh(FLAT, [(0, 1, 2), (1, 0, 3), (0, 1, 4)]).limit(1),
     "MeshError", "mesh", 2, (0, 1), "edge", "at most two faces"),
    (lambda: Mesh(FLAT, [(0, 1, 1)]).sparse(1), "MeshError", "mesh", 1, (0, None), "face 0", "repeated corner"),
    (lambda: Mesh(FLAT, [(0, 1)]).session(1), "MeshError", "mesh", 0, (0, None), "face 0", "at least three corners"),
    (lambda: Mesh(FLAT, [(0, 1, 8)]).refine(0),
     "MeshError", "bad arrays", 8, (2, None), "bad corner at 2", "counted from 0"),
    (lambda: Mesh(FLAT, ([4], [0, 1, 2])).refine(0),
     "MeshError", "bad arrays", 6, None, "sum of face sizes", "add up"),
    (lambda: cube(holes=[6]).table(1),
     "MeshError", "bad arrays", 12, (0, None), "bad hole at 0", "a face that the mesh has"),
    (lambda: cube(creases=[(0, 8, 1)]).table(1),
     "MeshError", "bad arrays", 10, (0, None), "bad crease at 0", "both ends"),
    (lambda: cube(corners=[(8, 1)]).table(1),
     "MeshError", "bad arrays", 11, (0, None), "bad corner tag at 0", "counted from 0"),
    (lambda: cube(uvs=([(0, 0)], [0] * 23)).refine(1).uvs,
     "MeshError", "bad arrays", 7, None, "texture corner", "for each corner"),
    (lambda: cube(uvs=([(0, 0)], [1] * 24)).refine(1),
     "MeshError", "bad arrays", 9, (0, None), "texture corner at 0", "texture value"),
    (lambda: wide_fan(65537).refine(0), "TooLargeError", "too large", 2, None, "corners", "smaller"),
    (lambda: cube().refine(10), "TooLargeError", "too large", 4, None, "faces", "4,194,304"),
    (lambda: crease_end().limit(1), "LimitError", "limit", 0, (0, None), "0", "sharp corner"),
    (lambda: sharp_chaikin().refine(6), "ExactOverflowError", "overflow", None, None, "overflow", "digits"),
    (lambda: cube().table(1).exact([(Fraction(2**126, 3), 0, 0)] * 8),
     "ExactOverflowError", "overflow", 16, (0, 0), "row 0", "fewer digits"),
    (lambda: drillolive.Table.from_text("table"), "TableError", "table", 0, (1, 0), "line 1", "stored table"),
    (lambda: cube().check_table(2, cube().table(1).text()), "TableError", "differs", 0, None, "row", "another mesh"),
    (lambda: Mesh([(0, NAN, 0)], []), "NumberError", "bad number", 0, (1, 0), "number 1 is not finite", "finite one"),
    (lambda: Mesh([(0, 0, 0), (0, 0, -INFINITE)], []),
     "NumberError", "bad number", 0, (5, 0), "number 5", "finite one"),
    (lambda: Mesh([(1e30, 1e-30, 0)], []), "NumberError", "bad number", 1, None, "too wide", "fewer digits"),
    (lambda: cube(creases=[(0, 1, 1), (1, 3, NAN)]),
     "NumberError", "bad number", 0, (1, 0), "number 1", "finite one"),
    (lambda: cube(corners=[(0, 2.0**-61)]), "NumberError", "bad number", 1, (0, 0), "too wide", "fewer digits"),
    (lambda: cube(creases=[(0, 1, -1.0)]), "ArgumentError", "range", 2, (0, 0), "sharpness", "at least 0"),
    (lambda: cube().patch(1, 24, 4), "PlaceError", "place", 0, (24, None), "24", "counted from 0"),
    (lambda: cube().patch_table(1, 0, 4), "PlaceError", "place", 1, (0, None), "0", "four quads around each corner"),
    (lambda: cube().session(1).move(8, (0, 0, 0)), "PlaceError", "range", 1, (8, 8), "index 8", "counted from 0"),
    (lambda: cube().session(1).points([0, 26]), "PlaceError", "range", 1, (26, 26), "index 26", "counted from 0"),
    (lambda: cube().session(1).exact([98]), "PlaceError", "range", 1, (98, 26), "index 98", "counted from 0"),
    (lambda: cube().texture_table(1), "ArgumentError", "bad argument", 0, None, "option", "texture"),
]  # fmt: skip

# What is called, the exception, and words of the line and of the advice.
OWN_CASES: list[Any] = [
    (lambda: cube().refine(11), "ArgumentError", "depth 11 is out of range", "from 0 to 10"),
    (lambda: cube().limit(0), "ArgumentError", "depth 0 is out of range", "from 1 to 10"),
    (lambda: cube().refine(-1), "ArgumentError", "depth -1", "from 0 to 10"),
    (lambda: cube().table(2**32), "ArgumentError", "depth 4294967296", "from 0 to 10"),
    (lambda: cube().refine(1.5), "ArgumentError", "depth 1.5 is not a whole number", "from 0 to 10"),
    (lambda: cube().refine(1, uv="corner"),
     "ArgumentError", "uv 'corner' is not known", "smooth, corners, boundaries, linear"),
    (lambda: cube().sparse(1, select="feature"), "ArgumentError", "select 'feature'", "features, all"),
    (lambda: cube(boundary=2), "ArgumentError", "boundary 2 is not known", "none, edge_and_corner, edge_only"),
    (lambda: cube(method="Normal"), "ArgumentError", "method 'Normal'", "normal, chaikin"),
    (lambda: cube(grid_bits=127), "ArgumentError", "bits of the grid 127", "from 0 to 126"),
    (lambda: cube().patch(1, 0, 65), "ArgumentError", "grid 65", "from 1 to 64"),
    (lambda: cube().patch(1, -1, 4), "ArgumentError", "face -1", "from 0 to"),
    (lambda: cube().session(1, finer_bits=-1), "ArgumentError", "finer bits -1", "from 0 to"),
    (lambda: cube(holes=[-1]), "ArgumentError", "hole 0 is -1", "from 0 to 4294967295"),
    (lambda: cube(holes=[False, True]), "ArgumentError", "hole 0 is False", "whole number"),
    (lambda: cube(creases=[(0, 1.0, 1)]), "ArgumentError", "point of the creases 1 is 1.0", "whole number"),
    (lambda: cube(creases=[(0, 1)]), "ArgumentError", "creases have 3 items each", "(point, point, sharpness)"),
    (lambda: Mesh(CUBE_POINTS, [(0, 1, 2**32)]), "ArgumentError", "corner 2 is 4294967296", "from 0 to 4294967295"),
    (lambda: Mesh(CUBE_POINTS, [0, 1, 2]), "ArgumentError", "no lists of corners", "[(0, 1, 2), (0, 2, 3)]"),
    (lambda: Mesh([(0, 0)], []), "ArgumentError", "row 0 of the points has 2 numbers, and not 3", "3 numbers"),
    (lambda: Mesh([(0, 0, 0), (1, 2, 3, 4)], []), "ArgumentError", "row 1 of the points has 4 numbers", "3 numbers"),
    (lambda: Mesh([0, 1, 2], []), "ArgumentError", "no rows of numbers", "[(0, 0, 1), (1, 0, 1)]"),
    (lambda: Mesh([(0, "1", 2)], []), "ArgumentError", "number 1 is no number: '1'", "fractions"),
    (lambda: Mesh([(Fraction(1, 3), INFINITE, 0)], []), "NumberError", "number 1 is not finite", "finite one"),
    (lambda: Mesh([(Fraction(1, 3), Fraction(1, 2**64), 0)], []), "NumberError", "more than 64 bits", "give floats"),
    (lambda: Mesh([(0, 2**63, 0)], []), "NumberError", "number 1 is too wide", "64 bits"),
    (lambda: cube(creases=[(0, 1, Fraction(1, 3))]), "NumberError", "no double: 1/3", "Round it"),
    (lambda: cube().table(1) @ CUBE_POINTS[1:],
     "ArgumentError", "7 points, and the table has 8 controls", "one point"),
    (lambda: cube().table(1) @ [(0,) * 17] * 1, "ArgumentError", "1 points", "one point"),
    (lambda: cube().table(1) @ ([(0,) * 17] * 8), "ArgumentError", "17 numbers each", "1 to 16"),
    (lambda: cube().table(1) @ ([()] * 8), "ArgumentError", "0 numbers each", "1 to 16"),
    (lambda: cube().table(1).rows(0, 27) @ CUBE_POINTS, "PlaceError", "row 27 is not there", "from 0 to 25"),
    (lambda: cube().table(1).rows(9, 8) @ CUBE_POINTS, "PlaceError", "row 9", "from 0 to 25"),
    (lambda: cube().table(1).exact_row(26), "PlaceError", "row 26 is not there", "from 0 to 25"),
    (lambda: cube().sparse(2)[3], "PlaceError", "level 3 is not there", "from 0 to 2"),
    (lambda: cube().table(1).exact([(2**127, 0, 0)] * 8), "NumberError", "more than 128 bits", "fewer digits"),
    (lambda: drillolive.Table.from_text(cube().table(1).text() + "v 1 2 3\n"), "TableError", "more text", "alone"),
    (lambda: drillolive.run(["refine", "depth=1\0"], b""), "ArgumentError", "zero byte", "command line"),
    (lambda: cube().session(1).move([0, 1], [(0, 0, 0)]), "ArgumentError", "2 controls and 1 points", "one point"),
    (lambda: cube().session(1).move_exact(0, (0, 0, 0.5)),
     "NumberError", "number 2 is no multiple of 1/1", "finer_bits"),
]  # fmt: skip

# The classes of Python that exceptions belong to as well.
MIXED = {
    "ArgumentError": ValueError,
    "NumberError": ValueError,
    "PlaceError": IndexError,
    "OutOfMemoryError": MemoryError,
}


class Refusals(unittest.TestCase):
    """Each refusal is an exception of its class, and tells what is wrong and what to do."""

    def caught(self, function: Callable[[], Any], name: str) -> drillolive.Error:
        """Returns the exception of a call, which must have this class."""
        with self.assertRaises(drillolive.Error) as caught:
            function()
        error = caught.exception
        self.assertEqual(type(error).__name__, name, str(error))
        self.assertIsInstance(error, MIXED.get(name, drillolive.Error))
        self.assertEqual(str(error), f"{error.line}. {error.advice}")
        self.assertTrue(error.advice.endswith("."), error.advice)
        return error

    def test_of_the_library(self) -> None:
        for place, (function, name, status, kind, numbers, line, advice) in enumerate(LIBRARY_CASES):
            with self.subTest(place, line=line):
                error = self.caught(function, name)
                fault = error.fault
                self.assertEqual(fault.status, status, str(error))
                self.assertIn(kind, (fault.kind, None), str(error))
                for held, wanted in zip((fault.first, fault.second), numbers or ()):
                    self.assertIn(wanted, (held, None), str(error))
                self.assertTrue(error.line.startswith("far: "), error.line)
                self.assertIn(line, fault.cause)
                self.assertIn(advice, error.advice)

    def test_of_the_package(self) -> None:
        for place, (function, name, line, advice) in enumerate(OWN_CASES):
            with self.subTest(place, line=line):
                error = self.caught(function, name)
                self.assertTrue(error.line.startswith("drillolive: "), error.line)
                self.assertIn(line, error.fault.cause)
                self.assertIn(advice, error.advice)

    @unittest.skipUnless(numpy, "numpy is not installed")
    def test_of_arrays(self) -> None:
        cases = [
            (lambda: Mesh(numpy.zeros(9), []), "shape (9,)", "(n, 3)"),
            (lambda: Mesh(numpy.zeros((3, 2)), []), "shape (3, 2)", "(n, 3)"),
            (lambda: Mesh(CUBE_POINTS, numpy.array(CUBE_FACES) - 1), "corner 0 is -1", "4294967295"),
            (lambda: Mesh(CUBE_POINTS, numpy.array(CUBE_FACES, float)), "corner 0 is 0.0", "whole number"),
            (lambda: cube(holes=numpy.array([True] * 6)), "hole 0 is True", "whole number"),
            (lambda: Mesh(CUBE_POINTS, numpy.zeros(4, int)), "shape (4,)", "(m, k)"),
            (lambda: cube().table(1) @ numpy.zeros((8, 1, 1)), "shape (8, 1, 1)", "(n, columns)"),
            (lambda: cube().table(1) @ numpy.zeros((7, 3)), "7 points", "one point"),
        ]
        for function, line, advice in cases:
            with self.subTest(line):
                error = self.caught(function, "ArgumentError")
                self.assertIn(line, error.line)
                self.assertIn(advice, error.advice)

    def test_classes(self) -> None:
        names = {kind.__name__ for _, kind in STATUSES.values()} - {"Error"}
        seen = {name for _, name, *_ in LIBRARY_CASES + OWN_CASES}
        self.assertEqual(names - seen, {"OutOfMemoryError"})
        for status, (name, kind) in STATUSES.items():
            fault = drillolive.Fault(name, 0, 0, 0, "far: line", "Advice.")
            self.assertIs(type(drillolive.errors.error_of(fault)), kind, status)

    def test_memory(self) -> None:
        code = "import resource, sys, drillolive\n"
        code += "mesh = drillolive.Mesh.from_obj(sys.stdin.buffer.read())\n"
        code += "resource.setrlimit(resource.RLIMIT_AS, (2**29, 2**29))\n"
        code += "try:\n    mesh.table(6)\nexcept MemoryError as fault:\n    print(type(fault).__name__, fault)\n"
        code += "print(len(mesh.refine(1).points))\n"
        done = run_python(code, text=example("dog").decode())
        self.assertEqual(done.returncode, 0, done.stderr)
        self.assertTrue(done.stdout.startswith("OutOfMemoryError far: out of memory. Refine fewer times"), done.stdout)
        self.assertEqual(done.stdout.splitlines()[1], "1362")

    def test_null(self) -> None:
        with self.assertRaises(drillolive.ArgumentError) as caught:
            call("mesh_check", None)
        self.assertEqual((caught.exception.fault.status, caught.exception.fault.first), ("null", 0))


class Faults(unittest.TestCase):
    """`check` lists all faults of a mesh."""

    def test_all(self) -> None:
        cases: list[tuple[list[Any], list[tuple[str, int, int, int]]]] = [
            ([(0, 1, 2)], []),
            ([(0, 1), (2, 3, 4), (5, 6)], [("mesh", 0, 0, 0), ("mesh", 0, 2, 0)]),
            ([(0, 1, 2, 1, 3), (4, 5, 6), (7,)], [("mesh", 0, 2, 0), ("mesh", 1, 0, 0)]),
            ([(0, 1, 2), (0, 1, 3), (4, 5, 6), (4, 5, 7)], [("mesh", 3, 0, 1), ("mesh", 3, 4, 5)]),
            ([(0, 1, 2), (1, 0, 3), (0, 1, 4)], [("mesh", 2, 0, 1), ("mesh", 3, 0, 1)]),
            (BOWTIE, [("mesh", 4, 0, 0)]),
            ([(0, 1, 2), (0, 3, 4), (5, 6, 7), (5, 6, 4)], [("mesh", 3, 5, 6), ("mesh", 4, 0, 0), ("mesh", 4, 4, 0)]),
            ([(2, 3, 4), (0, 1), (2, 5, 6)], [("mesh", 0, 1, 0), ("mesh", 4, 2, 0)]),
            ([(2, 3, 4), (2, 2, 1), (2, 5, 6)], [("mesh", 1, 1, 0)]),
            ([(0, 1, 9)], [("bad arrays", 8, 2, 0)]),
        ]
        for faces, wanted in cases:
            with self.subTest(faces):
                found = Mesh(FLAT, faces).check()
                held = [(fault.status, fault.kind, fault.first, fault.second) for fault in found]
                self.assertEqual([fault[:2] for fault in held], [fault[:2] for fault in wanted])
                self.assertEqual([fault[2:] for fault in held], [fault[2:] for fault in wanted])
                self.assertTrue(all(fault.line and fault.advice for fault in found))

    def test_many(self) -> None:
        faces = [(3 * face, 3 * face + 1) for face in range(1000)]
        faults = Mesh([(0, 0, number) for number in range(3000)], faces).check()
        self.assertEqual([fault.first for fault in faults], list(range(1000)))

    def test_too_large(self) -> None:
        self.assertEqual([fault.status for fault in wide_fan(65537).check()], ["too large"])

    def test_first_of_refine(self) -> None:
        mesh = Mesh(FLAT, BOWTIE)
        with self.assertRaises(drillolive.MeshError) as caught:
            mesh.refine(1)
        self.assertEqual([caught.exception.fault], mesh.check())

    def test_examples(self) -> None:
        faults = Mesh.from_obj(example("back_to_back")).check()
        answer = drillolive.run(["refine", "depth=0"], example("back_to_back"))
        self.assertEqual([fault.line for fault in faults[:1]], [answer.error.strip()] if answer.status else [])


if __name__ == "__main__":
    unittest.main()
