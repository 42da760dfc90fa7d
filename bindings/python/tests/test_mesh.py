"""Meshes: the forms in which points, faces and tags are given, and OBJ text."""

from __future__ import annotations

import tempfile
import unittest
from array import array
from fractions import Fraction
from pathlib import Path

from support import CUBE_FACES, CUBE_POINTS, EXAMPLES, cube, example, fractions_of, listed, meshes

import drillolive
from drillolive.arrays import numpy

CORNERS = [corner for face in CUBE_FACES for corner in face]


class Points(unittest.TestCase):
    """Points in each form are taken exactly."""

    def exact_points(self, points: object) -> list[tuple[Fraction, ...]]:
        """Returns what a mesh of these points, and of one triangle, has as points."""
        return drillolive.Mesh(points, [(0, 1, 2)]).refine(0).exact()

    def test_lists(self) -> None:
        third = Fraction(1, 3)
        rows = {
            "floats": [(0.1, -0.0, 1e-9), (1.5, 2.0, 3.25), (1e9, 0.3, 7.0)],
            "whole": [(0, 1, 2), (3, -4, 5), (2**53, 7, -8)],
            "wide": [(2**62, 1, 2), (3, -(2**62), 5), (6, 7, 8)],
            "fractions": [(third, Fraction(-2, 7), 0), (1, third * 2, 0.5), (Fraction(1, 8), 4, 9)],
            "mixed": [(0, 0.5, 1), (True, 2, 3.0), (4, 5, 6.25)],
            "lists": [[0, 1, 2], [3.5, 4, 5], [6, 7, 9]],
        }
        for name, points in rows.items():
            with self.subTest(name):
                wanted = [tuple(map(Fraction, row)) for row in points]
                self.assertEqual(self.exact_points(points), wanted)
                self.assertEqual(self.exact_points(map(iter, points)), wanted)

    @unittest.skipUnless(numpy, "numpy is not installed")
    def test_arrays(self) -> None:
        held = numpy.array([(0.1, -2.5, 3), (4, 5.75, 6), (7, 8, 9.2)])
        apart = numpy.zeros((3, 6))
        apart[:, ::2] = held
        forms = {
            "float64": held, "float32": held.astype("f4"), "float16": held.astype("f2"),
            "columns": numpy.asfortranarray(held), "apart": apart[:, ::2], "other order": held.astype(">f8"),
            "int64": held.astype("i8"), "uint8": abs(held).astype("u1"),
            "uint64": numpy.full((3, 3), 2**63 - 1, "u8") - numpy.eye(3, dtype="u8"),
            "object": numpy.array([[Fraction(1, 3)] * 3] * 3, dtype=object),
        }  # fmt: skip
        for name, points in forms.items():
            with self.subTest(name):
                self.assertEqual(self.exact_points(points), [tuple(map(Fraction, row)) for row in points.tolist()])

    def test_faces(self) -> None:
        sizes = [4] * 6
        forms = {
            "tuples": CUBE_FACES, "lists": [list(face) for face in CUBE_FACES], "pair": (sizes, CORNERS),
            "pair of arrays": (array("I", sizes), array("I", CORNERS)), "iterator": iter(CUBE_FACES),
        }  # fmt: skip
        if numpy is not None:
            square = numpy.array(CUBE_FACES)
            apart = numpy.repeat(square, 2, axis=1)[:, ::2]
            forms.update({"int64": square, "uint32": square.astype("u4"), "apart": apart})
            forms.update({"pair of numpy": (numpy.array(sizes), square), "rows": list(square)})
        for name, faces in forms.items():
            with self.subTest(name):
                mesh = drillolive.Mesh(CUBE_POINTS, faces)
                self.assertEqual(listed(mesh.faces), CUBE_FACES)
                self.assertEqual(listed(mesh.face_sizes), sizes)
                self.assertEqual(listed(mesh.corners), CORNERS)
                self.assertEqual(mesh.refine(1).exact(), cube().refine(1).exact())

    def test_mixed_faces(self) -> None:
        mesh = drillolive.Mesh(CUBE_POINTS, [*CUBE_FACES[1:], (0, 2, 3), (0, 3, 1)])
        self.assertEqual([tuple(face) for face in mesh.faces], [*CUBE_FACES[1:], (0, 2, 3), (0, 3, 1)])
        self.assertEqual([tuple(face) for face in mesh.refine(0).faces], [*CUBE_FACES[1:], (0, 2, 3), (0, 3, 1)])
        self.assertEqual(set(map(len, listed(mesh.refine(1).faces))), {4})

    def test_an_empty_mesh(self) -> None:
        mesh = drillolive.Mesh([], [])
        self.assertEqual(mesh.check(), [])
        self.assertEqual((len(mesh.refine(2).points), len(mesh.refine(2).faces)), (0, 0))

    def test_grid(self) -> None:
        points = [(0.3, 0.5, 0.625), (Fraction(3, 8), Fraction(1, 3), 1), (2, 3, 4)]
        mesh = drillolive.Mesh(points, [(0, 1, 2)], grid_bits=2)
        quarters = [(1, 2, 2), (2, 1, 4), (8, 12, 16)]
        self.assertEqual(mesh.refine(0).exact(), [tuple(Fraction(number, 4) for number in row) for row in quarters])
        self.assertEqual(mesh.rounded, 4)
        floats = drillolive.Mesh([(0.3, 0.5, 0.625), (0.375, 0.0, 1), (2, 3, 4)], [(0, 1, 2)], grid_bits=2)
        half = Fraction(1, 2)
        self.assertEqual(floats.refine(0).exact()[:2], [(half / 2, half, half), (half, 0, 1)])
        self.assertEqual(floats.rounded, 3)
        self.assertEqual(cube().rounded, 0)


class Tags(unittest.TestCase):
    """Tags and texture that are given are those of the same OBJ text."""

    def test_against_text(self) -> None:
        lines = {
            "t crease 2/1/0 0 1 2.5": {"creases": [(0, 1, 2.5)]},
            "t crease 3/1/0 0 1 3 10": {"creases": [(0, 1, 10), (1, 3, float("inf"))]},
            "t corner 1/1/0 3 1.5": {"corners": [(3, Fraction(3, 2))]},
            "t hole 1/0/0 4": {"holes": [4]},
            "t interpolateboundary 1/0/0 0\nt hole 1/0/0 4": {"boundary": "none", "holes": [4]},
            "t interpolateboundary 1/0/0 1": {"boundary": "edge_and_corner"},
            "t creasemethod 0/0/1 chaikin\nt crease 4/3/0 0 1 3 2 1 2 3": {
                "method": "chaikin",
                "creases": [(0, 1, 1), (1, 3, 2), (3, 2, 3)],
            },
        }
        text = "".join(f"v {x} {y} {z}\n" for x, y, z in CUBE_POINTS)
        text += "".join("f " + " ".join(str(corner + 1) for corner in face) + "\n" for face in CUBE_FACES)
        plain = cube().refine(2)
        for line, options in lines.items():
            with self.subTest(line):
                wanted = fractions_of(drillolive.run(["refine", "depth=2"], f"{text}{line}\n").text)
                made, read = cube(**options), drillolive.Mesh.from_obj(text.encode(), **options)
                self.assertEqual(made.refine(2).exact(), wanted)
                self.assertEqual(read.refine(2).exact(), wanted)
                changed = made.refine(2).exact() != plain.exact() or any(made.refine(2).holes)
                self.assertTrue(changed or "interpolateboundary" in line)

    def test_tags_come_back(self) -> None:
        plain = cube()
        self.assertEqual((plain.creases, plain.corner_tags, listed(plain.holes)), ([], [], []))
        creases = [(0, 1, 2.5), (6, 7, 0.0), (1, 0, float("inf"))]
        made = cube(creases=creases, corners=[(3, 0.125)], holes=[4, 1])
        half = Fraction(5, 2)
        self.assertEqual(made.creases, [(0, 1, half), (6, 7, 0), (1, 0, 10)])
        self.assertEqual((made.corner_tags, listed(made.holes)), ([(3, Fraction(1, 8))], [4, 1]))
        again = cube(creases=made.creases, corners=made.corner_tags, holes=made.holes)
        self.assertEqual(again.refine(2).exact(), made.refine(2).exact())
        lines = "t crease 3/2/0 0 1 3 1/3 2\nt corner 1/1/0 3 7/5\nt hole 2/0/0 5 0\n"
        text = "".join(f"v {x} {y} {z}\n" for x, y, z in CUBE_POINTS)
        text += "".join("f " + " ".join(str(corner + 1) for corner in face) + "\n" for face in CUBE_FACES)
        read = drillolive.Mesh.from_obj((text + lines).encode())
        self.assertEqual(read.creases, [(0, 1, Fraction(1, 3)), (1, 3, 2)])
        self.assertEqual((read.corner_tags, listed(read.holes)), ([(3, Fraction(7, 5))], [5, 0]))

    def test_texture(self) -> None:
        mesh = drillolive.Mesh.from_obj(example("unfolded_cube"))
        base = mesh.refine(0, uv="linear")
        values, corners = base.uvs
        rows = [listed(corners)[4 * face : 4 * face + 4] for face in range(6)]
        for form in (listed(corners), rows):
            made = drillolive.Mesh(listed(base.points), base.faces, uvs=(listed(values), form))
            self.assertEqual(made.refine(2, uv="corners").exact_uvs(), mesh.refine(2, uv="corners").exact_uvs())
        floats = array("f", [number for row in listed(values) for number in row])
        if numpy is not None:
            held = numpy.frombuffer(floats, "f4").reshape(-1, 2)
            made = drillolive.Mesh(base.points, base.faces, uvs=(held, corners))
            self.assertEqual(made.refine(1).exact_uvs(), mesh.refine(1).exact_uvs())


class Text(unittest.TestCase):
    """OBJ text comes from a path or from bytes."""

    def test_sources(self) -> None:
        path = EXAMPLES / "creased_cube.obj"
        sources = [path, str(path), path.read_bytes(), bytearray(path.read_bytes()), memoryview(path.read_bytes())]
        wanted = fractions_of(drillolive.run(["refine", "depth=1"], path.read_bytes()).text)
        for source in sources:
            with self.subTest(type(source).__name__):
                self.assertEqual(drillolive.Mesh.from_obj(source).refine(1).exact(), wanted)
        with tempfile.TemporaryDirectory() as folder, self.assertRaises(FileNotFoundError):
            drillolive.Mesh.from_obj(Path(folder) / "missing.obj")

    def test_grid(self) -> None:
        text = b"v 0.3 .5 5/8 # a comment\nv 3/8 1/3 1e0 7\r\nv 2 1e-99999999999 4\nvt 0.3 0\nf 1 2 3\n"
        mesh = drillolive.Mesh.from_obj(text, grid_bits=2)
        quarters = [(1, 2, 2), (2, 1, 4), (8, 0, 16)]
        self.assertEqual(mesh.refine(0).exact(), [tuple(Fraction(number, 4) for number in row) for row in quarters])
        self.assertEqual(mesh.rounded, 5)
        long = b"v 0." + b"3" * 50 + b" 0 0\nv 1 0 0\nv 0 1 0\nf 1 2 3\n"
        with self.assertRaises(drillolive.ObjError):
            drillolive.Mesh.from_obj(long)
        third = drillolive.Mesh.from_obj(long, grid_bits=40).refine(0).exact()[0][0]
        self.assertEqual(third, Fraction(round(Fraction(2**40, 3)), 2**40))
        with self.assertRaises(drillolive.ObjError) as caught:
            drillolive.Mesh.from_obj(b"v 0 0 0\nv 1e99 nan x\nf 1 2 1\n", grid_bits=2)
        self.assertEqual(caught.exception.fault.first, 2)
        for bits in (-1, 127, 1.5):
            with self.subTest(bits), self.assertRaises(drillolive.ArgumentError):
                drillolive.Mesh.from_obj(text, grid_bits=bits)
        self.assertEqual(drillolive.Mesh.from_obj(example("cube"), grid_bits=None).rounded, 0)

    def test_examples(self) -> None:
        for name in meshes():
            with self.subTest(name):
                mesh = drillolive.Mesh.from_obj(example(name))
                self.assertEqual(mesh.check(), [])
                lines = [line for line in example(name).decode().splitlines() if line.startswith("f ")]
                self.assertEqual(mesh.counts.faces, len(lines))
                self.assertEqual(len(mesh.texture_corners), mesh.counts.texture_corners)
                self.assertEqual([len(line.split()) - 1 for line in lines], listed(mesh.face_sizes))
                self.assertEqual(listed(mesh.points), listed(mesh.refine(0).points))


if __name__ == "__main__":
    unittest.main()
