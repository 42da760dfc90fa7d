"""Lifetimes: arrays keep what they point into, and handles are freed when nothing refers to them any more."""

from __future__ import annotations

import gc
import resource
import unittest
from typing import Any, Callable
from unittest import mock

from support import cube, example, listed, run_python, torus

import drillolive
from drillolive import _calls
from drillolive._library import library

# What takes an array of a handle that is made for it alone.
ARRAYS: dict[str, Callable[[drillolive.Mesh], Any]] = {
    "corners": lambda mesh: mesh.corners,
    "points": lambda mesh: mesh.refine(2).points,
    "floats": lambda mesh: mesh.refine(2).floats(),
    "faces": lambda mesh: mesh.refine(2).faces,
    "edges": lambda mesh: mesh.refine(2).edges,
    "parents": lambda mesh: mesh.refine(2).face_parents,
    "origins": lambda mesh: mesh.refine(2).point_origins.numbers,
    "uvs": lambda mesh: mesh.refine(2).uvs.values,
    "uv corners": lambda mesh: mesh.refine(2).uvs.corners,
    "starts": lambda mesh: mesh.table(2).starts,
    "values": lambda mesh: mesh.table(2).values,
    "read values": lambda mesh: drillolive.Table.from_text(mesh.table(1).text()).values,
    "patch": lambda mesh: mesh.patch(2, 10, 2) if not mesh.check() else None,
    "sparse": lambda mesh: mesh.sparse(2)[2].points,
    "sparse numbers": lambda mesh: mesh.sparse(2)[1].numbers,
    "changed": lambda mesh: mesh.session(1).take_changed(),
    "session": lambda mesh: mesh.session(1).points(),
}


def disturb() -> None:
    """Takes and gives back memory, so that freed memory gets other contents."""
    gc.collect()
    for _ in range(20):
        cube().refine(3).floats()


class Lifetimes(unittest.TestCase):
    """Arrays and handles."""

    def test_arrays_outlive_their_mesh(self) -> None:
        text = example("unfolded_cube")
        kept = drillolive.Mesh.from_obj(text)
        for name, take in ARRAYS.items():
            if name == "patch":
                continue
            with self.subTest(name):
                held, wanted = take(drillolive.Mesh.from_obj(text)), listed(take(kept))
                disturb()
                self.assertEqual(listed(held), wanted)

    def test_what_outlives_its_mesh(self) -> None:
        wanted = cube().refine(1).exact()
        level, table, session = cube().refine(1), cube().table(1), cube().session(1)
        levels = cube().sparse(1)
        disturb()
        self.assertEqual(level.exact(), wanted)
        self.assertEqual(table.exact(listed(cube().points)), wanted)
        self.assertEqual(session.exact(), wanted)
        self.assertEqual(len(levels[1].exact()), 26)
        self.assertEqual(len(level.face_parents), 24)

    def test_each_handle_is_freed_once(self) -> None:
        made, freed = [], []

        class Counted(_calls.Handle):
            """A handle that is counted."""

            def __init__(self, kind: str, address: int) -> None:
                super().__init__(kind, address)
                made.append((kind, address))

        frees = {name: getattr(library(), name) for name in dir(library()) if name.endswith("_free")}

        def counting(kind: str) -> Callable[[int], None]:
            """Returns what frees a handle of a kind, and counts it."""

            def free(address: int) -> None:
                """Frees a handle."""
                freed.append((kind, address))
                frees[f"drillolive_{kind}_free"](address)

            return free

        kinds = [name[len("drillolive_") : -len("_free")] for name in frees]
        patches = {f"drillolive_{kind}_free": counting(kind) for kind in kinds}
        with mock.patch.object(_calls, "Handle", Counted), mock.patch.multiple(library(), **patches):
            for take in ARRAYS.values():
                if take is not ARRAYS["patch"]:
                    take(drillolive.Mesh.from_obj(example("unfolded_cube")))
            drillolive.run(["levels", "depth=0"], example("cube"))
            with self.assertRaises(drillolive.MeshError):
                drillolive.Mesh([(0, 0, 0)] * 5, [(0, 1, 2), (0, 3, 4)]).refine(1)
            gc.collect()
        self.assertEqual(sorted(made), sorted(freed))
        self.assertEqual({kind for kind, _ in made}, set(kinds))

    def test_memory_does_not_grow(self) -> None:
        points, faces = torus(40, 20)

        def work() -> None:
            """Makes a mesh, a level, a table and a frame."""
            mesh = drillolive.Mesh(points, faces)
            level, table = mesh.refine(2), mesh.table(2)
            self.assertEqual(len(table @ points), len(level.points))

        work()
        gc.collect()
        before = resource.getrusage(resource.RUSAGE_SELF).ru_maxrss
        for _ in range(20):
            work()
        grown = resource.getrusage(resource.RUSAGE_SELF).ru_maxrss - before
        self.assertLess(grown, 15000, "kilobytes; twenty leaks of a table are 40,000")

    def test_the_end_of_the_process(self) -> None:
        code = "import drillolive\nmesh = drillolive.Mesh([(0, 0, 0)] * 3, [(0, 1, 2)])\ntable = mesh.table(1)\n"
        done = run_python(code)
        self.assertEqual((done.returncode, done.stdout, done.stderr), (0, "", ""))


if __name__ == "__main__":
    unittest.main()
