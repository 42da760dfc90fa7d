"""Levels: points, faces, edges, origins, texture, limit points and patches, against the program's own text."""

from __future__ import annotations

import struct
import tempfile
import unittest
from fractions import Fraction
from pathlib import Path

from support import cube, example, fractions_of, listed, meshes, nearest

import drillolive
from drillolive.arrays import numpy

UV_MODES = ("smooth", "corners", "boundaries", "linear")


def float32(number: Fraction) -> float:
    """Returns the float of 32 bits nearest to a fraction of few bits."""
    return struct.unpack("f", struct.pack("f", float(number)))[0]


def mean(points: list[tuple[Fraction, ...]]) -> tuple[Fraction, ...]:
    """Returns the mean of points."""
    return tuple(sum(numbers) / Fraction(len(points)) for numbers in zip(*points))


def faces_of(text: str) -> list[list[tuple[int, ...]]]:
    """Returns for each `f` line of a text, and each corner, its numbers counted from 0."""
    lines = (line.split()[1:] for line in text.splitlines() if line.startswith("f "))
    return [[tuple(int(part) - 1 for part in corner.split("/")) for corner in line] for line in lines]


class Levels(unittest.TestCase):
    """Levels of all examples are those of the program."""

    def test_points_and_faces(self) -> None:
        for name in meshes():
            for depth in (0, 1, 2):
                with self.subTest(name, depth=depth):
                    self.check_level(example(name), depth)

    def check_level(self, text: bytes, depth: int) -> None:
        """Compares a level with the text of the program."""
        answer = drillolive.run(["refine", f"depth={depth}"], text)
        level = drillolive.Mesh.from_obj(text).refine(depth)
        wanted = fractions_of(answer.text)
        self.assertEqual(level.exact(), wanted)
        self.assertEqual(listed(level.points), nearest(wanted))
        self.assertEqual(listed(level.floats()), [tuple(map(float32, row)) for row in wanted])
        shown = [tuple(face) for face, is_hole in zip(listed(level.faces), level.holes) if not is_hole]
        self.assertEqual(shown, [tuple(corner[0] for corner in face) for face in faces_of(answer.text)])
        counts = level.counts
        self.assertEqual((counts.points, counts.faces), (len(wanted), len(level.faces)))
        self.assertEqual((counts.corners, counts.edges), (len(level.corners), len(level.edges)))
        self.assertEqual(sum(listed(level.face_sizes)), counts.corners)
        self.check_edges(level)

    def check_edges(self, level: drillolive.Refined) -> None:
        """Compares the edges with those that faces have."""
        faces = [tuple(face) for face in listed(level.faces)]
        sides = {frozenset(pair) for face in faces for pair in zip(face, face[1:] + face[:1])}
        self.assertEqual({frozenset(edge) for edge in listed(level.edges)}, sides)

    def test_texture(self) -> None:
        for name in ("unfolded_cube", "seamed_cube"):
            mesh = drillolive.Mesh.from_obj(example(name))
            for mode in UV_MODES:
                with self.subTest(name, mode=mode):
                    answer = drillolive.run(["refine", "depth=2", f"uv={mode}"], example(name))
                    level = mesh.refine(2, uv=mode)
                    wanted = fractions_of(answer.text, "vt")
                    self.assertEqual(level.exact_uvs(), wanted)
                    self.assertEqual(listed(level.uvs.values), nearest(wanted))
                    numbers = [corner[1] for face in faces_of(answer.text) for corner in face]
                    self.assertEqual(listed(level.uvs.corners), numbers)

    def test_no_texture(self) -> None:
        level = cube().refine(1)
        self.assertIsNone(level.uvs)
        self.assertIsNone(level.exact_uvs())

    def test_origins(self) -> None:
        mesh = cube()
        base, level = mesh.refine(0), mesh.refine(1)
        kinds, numbers = level.point_origins
        self.assertEqual(sorted(listed(kinds)), [0] * 8 + [1] * 12 + [2] * 6)
        points, faces, edges = base.exact(), listed(base.faces), listed(base.edges)
        centres = [mean([points[corner] for corner in face]) for face in faces]
        for kind, number, point in zip(listed(kinds), listed(numbers), level.exact()):
            if kind == 1:
                beside = [centres[face] for face, corners in enumerate(faces) if set(edges[number]) <= set(corners)]
                self.assertEqual(point, mean([points[end] for end in edges[number]] + beside))
            elif kind == 2:
                self.assertEqual(point, centres[number])
        for depth in (0, 1, 2, 3):
            level = mesh.refine(depth)
            children = 1 if depth == 0 else 4**depth
            self.assertEqual(listed(level.face_parents), [face for face in range(6) for _ in range(children)])
            self.assertEqual(len(level.point_origins.kinds), level.counts.points)

    def test_obj_text(self) -> None:
        for name in meshes():
            with self.subTest(name):
                level = drillolive.Mesh.from_obj(example(name)).refine(1, uv="corners")
                words = ["refine", "depth=1", *(["uv=corners"] if level.uvs else [])]
                answer = drillolive.run(words, example(name))
                self.assertEqual(answer.status, 0, answer.error)
                text = "".join(level.obj_lines())
                for keyword in ("v", "vt"):
                    rows = [tuple(map(float, row)) for row in fractions_of(text, keyword)]
                    self.assertEqual(rows, nearest(fractions_of(answer.text, keyword)), keyword)
                self.assertEqual(faces_of(text), faces_of(answer.text))
                with tempfile.TemporaryDirectory() as folder:
                    path = Path(folder) / "level.obj"
                    level.write_obj(path)
                    self.assertEqual(path.read_bytes().decode(), text)
                    self.assertEqual(listed(drillolive.Mesh.from_obj(path).points), listed(level.points))

    def test_what_is_made_once(self) -> None:
        level = drillolive.Mesh.from_obj(example("unfolded_cube")).refine(1)
        attributes = "points face_sizes corners edges holes faces face_parents point_origins uvs counts"
        for name in attributes.split():
            self.assertIs(getattr(level, name), getattr(level, name), name)
        for name in ("exact", "floats", "exact_uvs"):
            self.assertIs(getattr(level, name)(), getattr(level, name)(), name)

    @unittest.skipUnless(numpy, "numpy is not installed")
    def test_arrays(self) -> None:
        level = drillolive.Mesh.from_obj(example("unfolded_cube")).refine(1)
        wanted = {
            "points": ((26, 3), "float64"), "face_sizes": ((24,), "uint32"), "corners": ((96,), "uint32"),
            "edges": ((48, 2), "uint32"), "holes": ((24,), "uint8"), "faces": ((24, 4), "uint32"),
            "face_parents": ((24,), "uint32"),
        }  # fmt: skip
        for name, (shape, kind) in wanted.items():
            held = getattr(level, name)
            self.assertEqual((held.shape, held.dtype.name), (shape, kind), name)
            self.assertFalse(held.flags.writeable, name)
            self.assertFalse(held.flags.owndata, name)
        self.assertEqual((level.floats().shape, level.floats().dtype.name), ((26, 3), "float32"))


class Surface(unittest.TestCase):
    """Limit points and patches are those of the program."""

    def test_limit(self) -> None:
        for name in meshes():
            answer = drillolive.run(["limit", "depth=2"], example(name))
            if answer.status:
                continue
            with self.subTest(name):
                level = drillolive.Mesh.from_obj(example(name)).limit(2)
                self.assertEqual(level.exact(), fractions_of(answer.text))
                self.assertEqual(listed(level.points), nearest(fractions_of(answer.text)))
                shown = [tuple(face) for face, is_hole in zip(listed(level.faces), level.holes) if not is_hole]
                self.assertEqual(shown, [tuple(corner[0] for corner in face) for face in faces_of(answer.text)])

    def test_patch(self) -> None:
        for grid in (1, 3, 8):
            answer = drillolive.run(["patch", "depth=0", "face=4", f"grid={grid}"], example("canopy"))
            self.assertEqual(answer.status, 0)
            mesh = drillolive.Mesh.from_obj(example("canopy"))
            wanted = [row[2:] for row in fractions_of(answer.text, "s")]
            self.assertEqual(len(wanted), (grid + 1) ** 2)
            self.assertEqual(listed(mesh.patch(0, 4, grid)), nearest(wanted))
            table = mesh.patch_table(0, 4, grid)
            self.assertEqual(table.exact(mesh.refine(0).exact()), wanted)


if __name__ == "__main__":
    unittest.main()
