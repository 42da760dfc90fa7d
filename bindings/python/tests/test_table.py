"""Tables: their exact rows, their evaluation on each path, stored texts and files."""

from __future__ import annotations

import io
import random
import tempfile
import unittest
import zipfile
from array import array
from concurrent.futures import ThreadPoolExecutor
from fractions import Fraction
from pathlib import Path
from typing import Any

from support import example, listed, meshes, torus

import drillolive
from drillolive.arrays import numpy

try:
    import scipy
except ImportError:
    scipy = None

LARGE = b"\xff\xff\xff\x00"
UNIT = Fraction(1, 2**53)  # the relative error of one rounding to a double


def bound_of(table: drillolive.Table, greatest: float) -> Fraction:
    """Returns how far a sum of doubles may be from the exact one: by the rounding of weights, products and sums."""
    starts = listed(table.starts)
    entries = max(after - before for before, after in zip(starts, starts[1:]))
    return Fraction(greatest) * (entries + 2) * UNIT


class Rows(unittest.TestCase):
    """The exact rows of a table."""

    def test_the_cube(self) -> None:
        table = drillolive.Mesh.from_obj(example("cube")).table(1)
        fourth, sixteenth = Fraction(1, 4), Fraction(1, 16)
        self.assertEqual(table.shape, (26, 8))
        self.assertEqual(table.exact_row(8), [(control, fourth) for control in (0, 1, 2, 3)])
        row = dict(table.exact_row(0))
        wanted = [Fraction(share, 36) for share in (1, 1, 1, 6, 6, 6, 15)]
        self.assertEqual(sorted(row.values()), wanted)
        ends = [control for control, share in table.exact_row(25) if share == 6 * sixteenth]
        self.assertEqual((len(ends), len(table.exact_row(25))), (2, 6))
        self.assertEqual(table.exact_row(-1), table.exact_row(25))

    def test_shares(self) -> None:
        for name in meshes():
            mesh = drillolive.Mesh.from_obj(example(name))
            for depth in (0, 1, 2):
                with self.subTest(name, depth=depth):
                    self.check_shares(mesh.table(depth))

    def check_shares(self, table: drillolive.Table) -> None:
        """Compares the arrays of a table with its exact rows, which sum to 1."""
        starts, indices, values = listed(table.starts), listed(table.indices), listed(table.values)
        self.assertEqual((len(starts), starts[-1], len(values)), (table.shape[0] + 1, len(indices), len(indices)))
        for row in range(table.shape[0]):
            entries = table.exact_row(row)
            self.assertEqual(sum(share for _, share in entries), 1)
            span = slice(starts[row], starts[row + 1])
            self.assertEqual([control for control, _ in entries], indices[span])
            self.assertEqual([float(share) for _, share in entries], values[span])

    def test_other_tables(self) -> None:
        mesh = drillolive.Mesh.from_obj(example("unfolded_cube"))
        base, level = mesh.refine(0, uv="corners"), mesh.refine(2, uv="corners")
        tables = {
            "limit": (mesh.limit_table(2), mesh.limit(2).exact(), base.exact()),
            "texture": (mesh.texture_table(2, uv="corners"), level.exact_uvs(), base.exact_uvs()),
            "level": (mesh.table(2), level.exact(), base.exact()),
        }
        for name, (table, wanted, controls) in tables.items():
            with self.subTest(name):
                self.check_shares(table)
                self.assertEqual(table.exact(controls), wanted)
                made = listed(table @ [tuple(map(float, row)) for row in controls])
                for row, exact in zip(made, wanted):
                    self.assertTrue(all(abs(number - share) <= bound_of(table, 4) for number, share in zip(row, exact)))


class Evaluation(unittest.TestCase):
    """What `table @ points` gives."""

    def setUp(self) -> None:
        """Makes a table and a pose."""
        self.mesh = drillolive.Mesh.from_obj(example("dog"))
        self.table = self.mesh.table(2)
        source = random.Random(1)
        self.pose = [tuple(source.uniform(-4, 4) for _ in range(3)) for _ in range(self.table.shape[1])]

    def test_points(self) -> None:
        for name in meshes():
            mesh = drillolive.Mesh.from_obj(example(name))
            for depth in (0, 1, 2):
                with self.subTest(name, depth=depth):
                    level, table = mesh.refine(depth), mesh.table(depth)
                    greatest = max((abs(number) for row in listed(mesh.points) for number in row), default=0)
                    for made, exact in zip(listed(table @ mesh.points), level.exact()):
                        error = max(abs(number - share) for number, share in zip(made, exact))
                        self.assertLessEqual(error, bound_of(table, greatest))

    def test_poses(self) -> None:
        exact = self.table.exact(self.pose)
        for made, wanted in zip(listed(self.table @ self.pose), exact):
            error = max(abs(number - share) for number, share in zip(made, wanted))
            self.assertLessEqual(error, bound_of(self.table, 4))
        moved = drillolive.Mesh(self.pose, self.mesh.faces)
        self.assertEqual(moved.refine(2).exact(), exact)

    def test_ranges_and_columns(self) -> None:
        whole = listed(self.table @ self.pose)
        rows = self.table.shape[0]
        for first, last in ((0, rows), (0, 0), (5, 9), (rows - 1, rows), (rows, rows), (1, rows - 1)):
            self.assertEqual(listed(self.table.rows(first, last) @ self.pose), whole[first:last])
        for columns in (1, 2, 4, 5, 16):
            wide = [tuple(row[column % 3] for column in range(columns)) for row in self.pose]
            made = listed(self.table @ wide)
            self.assertEqual(made, [tuple(row[column % 3] for column in range(columns)) for row in whole])
        flat = listed(self.table @ [row[1] for row in self.pose])
        self.assertEqual(flat, [row[1] for row in whole])

    @unittest.skipUnless(numpy, "numpy is not installed")
    def test_arrays(self) -> None:
        whole = self.table @ self.pose
        self.assertEqual((whole.dtype.name, whole.flags.writeable), ("float64", True))
        held = numpy.array(self.pose)
        apart = numpy.zeros((len(held), 6))
        apart[:, ::2] = held
        for form in (held, numpy.asfortranarray(held), apart[:, ::2], held.astype(">f8"), held.tolist()):
            self.assertTrue((self.table @ form == whole).all())
        self.assertTrue((self.table @ held[:, 0] == whole[:, 0]).all())
        single = held.astype("f4")
        self.assertTrue((self.table @ single == self.table @ single.astype("f8")).all())

    def test_floats(self) -> None:
        table = self.mesh.table(2, floats=True)
        for made, wanted in zip(listed(table @ self.pose), listed(self.table @ self.pose)):
            self.assertLess(max(abs(a - b) for a, b in zip(made, wanted)), 4 * 40 * 2.0**-24)
        for single, double in zip(listed(table.values), listed(self.table.values)):
            self.assertLessEqual(abs(single - double), 2.0**-24 * double)
        self.assertEqual(table.exact_row(7), self.table.exact_row(7))
        if numpy is not None:
            held = numpy.array(self.pose, "f4")
            self.assertEqual((table @ held).dtype.name, "float32")
            self.assertEqual(table.values.dtype.name, "float32")

    @unittest.skipUnless(scipy and numpy, "scipy is not installed")
    def test_weights(self) -> None:
        weights = self.table.weights
        self.assertEqual(weights.shape, self.table.shape)
        for name in ("data", "indices", "indptr"):
            ours = {"data": "values", "indices": "indices", "indptr": "starts"}[name]
            self.assertTrue(numpy.shares_memory(getattr(weights, name), getattr(self.table, ours)), name)
        self.assertTrue((weights @ numpy.array(self.pose) == self.table @ self.pose).all())
        self.assertEqual((self.mesh.table(2, floats=True).weights @ numpy.ones(342, "f4")).dtype.name, "float32")

    def test_threads(self) -> None:
        points, faces = torus(40, 30)
        table = drillolive.Mesh(points, faces).table(2)
        poses = [[(x * factor, y, z - factor) for x, y, z in points] for factor in range(8)]
        alone = [listed(table @ pose) for pose in poses]
        with ThreadPoolExecutor(8) as pool:
            together = list(pool.map(lambda pose: listed(table @ pose), poses))
            starts = range(0, 19200, 480)
            parts = list(pool.map(lambda first: listed(table.rows(first, first + 480) @ poses[3]), starts))
        self.assertEqual(together, alone)
        self.assertEqual([row for part in parts for row in part], alone[3])


class Storage(unittest.TestCase):
    """Tables that are written and read again."""

    def setUp(self) -> None:
        """Makes a table and a pose."""
        self.mesh = drillolive.Mesh.from_obj(example("creased_cube"))
        self.table = self.mesh.table(2)
        self.pose = [(number / 7, -number, 0.1 * number) for number in range(8)]

    def same(self, other: drillolive.Table, wanted: drillolive.Table) -> None:
        """Compares all of two tables."""
        self.assertEqual(other.shape, wanted.shape)
        for name in ("starts", "indices", "values"):
            self.assertEqual(listed(getattr(other, name)), listed(getattr(wanted, name)), name)
        for row in range(wanted.shape[0]):
            self.assertEqual(other.exact_row(row), wanted.exact_row(row))
        self.assertEqual(listed(other @ self.pose), listed(wanted @ self.pose))
        self.assertEqual(listed(other.rows(3, 11) @ self.pose), listed(wanted.rows(3, 11) @ self.pose))
        flat = [row[2] for row in self.pose]
        self.assertEqual(listed(other @ flat), listed(wanted @ flat))
        self.assertEqual(other.exact(self.pose), wanted.exact(self.pose))
        self.assertEqual(other.text(), wanted.text())

    def test_text(self) -> None:
        for name in meshes():
            text = drillolive.run(["stencils", "depth=1"], example(name)).text
            table = drillolive.Mesh.from_obj(example(name)).table(1)
            self.assertEqual(table.text(), text, name)
        self.same(drillolive.Table.from_text(self.table.text()), self.table)
        self.same(drillolive.Table.from_text(self.table.text().encode()), self.table)
        self.mesh.check_table(2, self.table.text())

    def test_file(self) -> None:
        with tempfile.TemporaryDirectory() as folder:
            path = Path(folder) / "table.npz"
            self.table.save(path)
            self.same(drillolive.Table.load(str(path)), self.table)
            first = path.read_bytes()
            drillolive.Table.load(path).save(path)
            self.assertEqual(path.read_bytes(), first)
        target = io.BytesIO()
        drillolive.Table.from_text(self.table.text()).save(target)
        self.assertEqual(target.getvalue(), first)
        self.same(drillolive.Table.load(io.BytesIO(first)), self.table)

    def test_floats(self) -> None:
        table, target = self.mesh.table(2, floats=True), io.BytesIO()
        table.save(target)
        again = drillolive.Table.load(target)
        self.assertEqual(listed(again.values), listed(table.values))
        self.assertEqual(again.text(), table.text())
        for made, wanted in zip(listed(again @ self.pose), listed(table @ self.pose)):
            self.assertLess(max(abs(a - b) for a, b in zip(made, wanted)), 8 * 20 * 2.0**-24)
            self.assertEqual(made, tuple(array("f", made)))

    def test_without_exact_weights(self) -> None:
        target = io.BytesIO()
        self.table.save(target, exact=False)
        table = drillolive.Table.load(target)
        self.assertEqual(listed(table @ self.pose), listed(self.table @ self.pose))
        with self.assertRaises(drillolive.TableError) as caught:
            table.exact_row(0)
        self.assertIn("no exact weights", str(caught.exception))

    @unittest.skipUnless(numpy, "numpy is not installed")
    def test_numpy_reads_it(self) -> None:
        target = io.BytesIO()
        self.table.save(target)
        target.seek(0)
        held = numpy.load(target)
        self.assertEqual(sorted(held), ["denominators", "indices", "numerators", "shape", "starts", "values"])
        self.assertEqual(tuple(held["shape"]), self.table.shape)
        self.assertTrue((held["values"] == self.table.values).all())
        low, high = held["numerators"][-1].tolist()
        scale = held["denominators"][-1].tolist()
        self.assertEqual(Fraction(low + (high << 64), scale[0] + (scale[1] << 64)), self.table.exact_row(-1)[-1][1])
        again = io.BytesIO()
        numpy.savez_compressed(again, **held)
        self.same(drillolive.Table.load(again), self.table)

    def test_bad_files(self) -> None:
        good = io.BytesIO()
        self.table.save(good)
        with zipfile.ZipFile(good) as file:
            parts = {name: file.read(name) for name in file.namelist()}
        cases: dict[str, Any] = {
            "no archive": b"table",
            "cut off": good.getvalue()[:-9],
            "no values": {**parts, "values.npy": None},
            "no array": {**parts, "starts.npy": b"starts"},
            "a cut array": {**parts, "indices.npy": parts["indices.npy"][:-1]},
            "another type": {**parts, "starts.npy": parts["values.npy"]},
            "starts that fall": {**parts, "starts.npy": parts["starts.npy"][:-8] + LARGE + parts["starts.npy"][-4:]},
            "a control too many": {**parts, "shape.npy": parts["shape.npy"][:-8] + (7).to_bytes(8, "little")},
            "fewer denominators": {**parts, "denominators.npy": parts["numerators.npy"]},
        }
        for name, case in cases.items():
            with self.subTest(name), self.assertRaises(drillolive.TableError) as caught:
                drillolive.Table.load(io.BytesIO(case if isinstance(case, bytes) else archive(case)))
            self.assertEqual(caught.exception.fault.status, "table")


def archive(parts: dict[str, bytes | None]) -> bytes:
    """Returns an archive of the parts that are there."""
    target = io.BytesIO()
    with zipfile.ZipFile(target, "w") as file:
        for name, data in parts.items():
            if data is not None:
                file.writestr(name, data)
    return target.getvalue()


if __name__ == "__main__":
    unittest.main()
