"""Sessions: the points of a level as those of the mesh move, against meshes that are made anew and against tables."""

from __future__ import annotations

import random
import unittest
from fractions import Fraction
from typing import Any

from support import CUBE_FACES, CUBE_POINTS, cube, example, listed

import drillolive
from drillolive.arrays import numpy


class Sessions(unittest.TestCase):
    """What a session has after moves."""

    def test_moves(self) -> None:
        """Random moves give the points of a mesh that is made anew. Points change whose rows have a moved control."""
        source, table = random.Random(3), cube().table(2)
        session, points = cube().session(2, finer_bits=6), [tuple(map(float, point)) for point in CUBE_POINTS]
        for _ in range(20):
            moved = source.sample(range(8), source.randrange(4))
            places = [tuple(source.randrange(-256, 256) / 64 for _ in range(3)) for _ in moved]
            self.assertEqual(session.move(moved, places), 0)
            for control, place in zip(moved, places):
                points[control] = place
            wanted = drillolive.Mesh(points, CUBE_FACES).refine(2)
            self.assertEqual(session.exact(), wanted.exact())
            self.assertEqual(listed(session.points()), listed(wanted.points))
            self.assertEqual(listed(session.floats()), listed(wanted.floats()))
            depend = [row for row in range(98) if any(control in moved for control, _ in table.exact_row(row))]
            self.assertEqual(listed(session.take_changed()), depend)
            self.assertEqual(listed(session.take_changed()), [])

    def test_frames_of_a_table(self) -> None:
        """A bump that runs over a mesh gives the points of the table in each frame."""
        mesh = drillolive.Mesh.from_obj(example("dog"))
        table, session, rest = mesh.table(1), mesh.session(1, finer_bits=20), listed(mesh.points)
        xs = [x for x, _, _ in rest]
        least, length = min(xs), max(xs) - min(xs)
        for frame in range(4):
            crest = least + length * frame / 3
            pose = [(x, y, z + max(0.0, 1 - (x - crest) ** 2) / 7) for x, y, z in rest]
            self.assertGreater(session.move(range(len(pose)), pose), 0)
            held = drillolive.Mesh(pose, mesh.faces, grid_bits=20).refine(0)
            self.assertEqual(session.exact(), table.exact(held.exact()))
            greatest = max(max(map(abs, row)) for row in pose)
            for made, wanted in zip(listed(table @ held.points), listed(session.points())):
                self.assertLess(max(abs(a - b) for a, b in zip(made, wanted)), greatest * 100 * 2.0**-53)

    def test_rounding(self) -> None:
        session = cube().session(1, finer_bits=2)
        self.assertEqual((session.denominator, session.control_count, session.point_count), (4, 8, 26))
        self.assertEqual(session.move(3, (0.3, 0.5, 0.625)), 2)
        eighth = drillolive.Mesh([*CUBE_POINTS[:3], (0.25, 0.5, 0.5), *CUBE_POINTS[4:]], CUBE_FACES)
        self.assertEqual(session.exact(), eighth.refine(1).exact())
        self.assertEqual(session.move([3], [(Fraction(1, 3), Fraction(1, 2), 1)]), 1)
        third = drillolive.Mesh([*CUBE_POINTS[:3], (0.25, 0.5, 1), *CUBE_POINTS[4:]], CUBE_FACES)
        self.assertEqual(session.exact(), third.refine(1).exact())

    def test_a_denominator_that_is_no_power_of_two(self) -> None:
        points = [(Fraction(x, 3), y, z) for x, y, z in CUBE_POINTS]
        session = drillolive.Mesh(points, CUBE_FACES).session(1)
        self.assertEqual(session.denominator, 3)
        self.assertEqual(session.move(0, (0.3, 1.0, Fraction(2, 3))), 1)
        session.move_exact([1], [(Fraction(4, 3), -2, 0.0)])
        points[:2] = [(Fraction(1, 3), 1, Fraction(2, 3)), (Fraction(4, 3), -2, 0)]
        self.assertEqual(session.exact(), drillolive.Mesh(points, CUBE_FACES).refine(1).exact())

    def test_refused_moves(self) -> None:
        session = cube().session(1)
        before = session.exact()
        moves: list[Any] = [
            ([0, 8], [(5, 5, 5)] * 2),
            ([0, 1], [(5, 5, 5), (0, 0, float("nan"))]),
            ([0], [(0, 2**126, 0)]),
        ]
        for controls, places in moves:
            with self.assertRaises(drillolive.Error):
                session.move(controls, places)
            self.assertEqual(session.exact(), before)
        self.assertEqual(listed(session.take_changed()), [])

    def test_choices_of_points(self) -> None:
        session = cube().session(1)
        whole, exact = listed(session.points()), session.exact()
        for numbers in ([], [25], [3, 1, 3], range(5, 9)):
            self.assertEqual(listed(session.points(numbers)), [whole[number] for number in numbers])
            self.assertEqual(session.exact(numbers), [exact[number] for number in numbers])
            self.assertEqual(len(session.floats(numbers)), len(list(numbers)))

    @unittest.skipUnless(numpy, "numpy is not installed")
    def test_arrays(self) -> None:
        session = cube().session(1, finer_bits=23)
        pose = numpy.array(CUBE_POINTS, "f4") * numpy.float32(0.3)
        self.assertEqual(session.move(numpy.arange(8), pose), drillolive.Mesh(pose, CUBE_FACES, grid_bits=23).rounded)
        self.assertEqual(session.points(numpy.array([1, 2])).shape, (2, 3))
        self.assertEqual(session.move(numpy.int64(3), pose[3].astype("f8")), 3)
        changed = session.take_changed()
        session.move(0, (0, 0, 0))
        self.assertEqual(listed(changed), list(range(26)))


if __name__ == "__main__":
    unittest.main()
