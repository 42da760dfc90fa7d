"""Meshes that are no manifold: what is said, and what is selected."""

from __future__ import annotations

import unittest
from dataclasses import dataclass

import bpy
from cages import clear
from drillolive_blender.faults import Elements as FaultyElements
from drillolive_blender.faults import elements_of, select
from test_operator import refusal


@dataclass(frozen=True)
class Fault:
    """A fault as the library gives it."""

    status: str
    kind: int
    first: int
    second: int
    cause: str
    advice: str


POINTS = [(0, 0, 0), (1, 0, 0), (1, 1, 0), (0, 1, 0), (2, 0, 1), (2, 1, 1), (2, 0, -1), (2, 1, -1)]
POINTS += [(3, 3, 0), (4, 3, 0)]

SQUARE = (0, 1, 2, 3)

# Faces; how many faults there are; and the points and edges that are selected in edit mode.
CASES = {
    "three faces at an edge": ([SQUARE, (1, 4, 5, 2), (1, 6, 7, 2)], 2, set(), {(1, 2)}),
    "a flipped face": ([SQUARE, (1, 2, 5, 4)], 1, set(), {(1, 2)}),
    "two flipped faces": ([SQUARE, (1, 2, 5, 4), (3, 0, 8)], 2, set(), {(1, 2), (0, 3)}),
    "two fans at a point": ([SQUARE, (2, 8, 9)], 1, {2}, set()),
    "two points with two fans": ([SQUARE, (2, 8, 9), (0, 4, 6)], 2, {0, 2}, set()),
    "a face twice": ([SQUARE, SQUARE], 4, set(), {(0, 1), (1, 2), (2, 3), (0, 3)}),
}


class Elements(unittest.TestCase):
    """What faults name."""

    def test_kinds(self) -> None:
        """Faults of faces, edges and points name these, and others name nothing."""
        faults = [
            Fault("mesh", 0, 3, 0, "", ""),
            Fault("mesh", 1, 4, 0, "", ""),
            Fault("mesh", 2, 5, 6, "", ""),
            Fault("mesh", 3, 7, 8, "", ""),
            Fault("mesh", 4, 9, 0, "", ""),
            Fault("bad arrays", 0, 1, 2, "", ""),
        ]
        self.assertEqual(elements_of(faults), FaultyElements([9], [(5, 6), (7, 8)], [3, 4]))


class Faults(unittest.TestCase):
    """Each case as a new object."""

    def tearDown(self) -> None:
        clear()

    def test_selection(self) -> None:
        """The elements of all faults are selected in edit mode, and no others."""
        for name, (faces, count, points, edges) in CASES.items():
            with self.subTest(name):
                clear()
                source = self.make(faces)
                line = refusal(depth=2)
                self.assertIn(f"no manifold: {count} fault{'s' if count > 1 else ''}, selected", line)
                self.assertEqual(bpy.context.mode, "EDIT_MESH")
                bpy.ops.object.mode_set(mode="OBJECT")
                self.assertEqual(len(bpy.data.objects), 1)
                ends = {point for edge in edges for point in edge}
                self.assertEqual({one.index for one in source.data.vertices if one.select}, points | ends)
                found = {tuple(sorted(one.vertices)) for one in source.data.edges if one.select}
                self.assertEqual(found, edges)

    def make(self, faces: list[tuple[int, ...]]) -> bpy.types.Object:
        """Returns a new active object of these faces, all of it selected."""
        mesh = bpy.data.meshes.new("faults")
        mesh.from_pydata(POINTS, [], faces)
        for items in (mesh.vertices, mesh.edges, mesh.polygons):
            items.foreach_set("select", [True] * len(items))
        source = bpy.data.objects.new("faults", mesh)
        bpy.context.collection.objects.link(source)
        bpy.context.view_layer.objects.active = source
        return source

    def test_faces(self) -> None:
        """A face at fault is selected with its points and edges."""
        source = self.make([SQUARE, (1, 4, 5, 2)])
        select(source, FaultyElements(faces=[1]))
        bpy.ops.object.mode_set(mode="OBJECT")
        self.assertEqual([one.index for one in source.data.polygons if one.select], [1])
        self.assertEqual({one.index for one in source.data.vertices if one.select}, {1, 2, 4, 5})

    def test_hidden(self) -> None:
        """A hidden element is shown where it has a fault."""
        source = self.make(CASES["two fans at a point"][0])
        source.data.vertices[2].hide = True
        refusal(depth=1)
        bpy.ops.object.mode_set(mode="OBJECT")
        self.assertEqual([one.index for one in source.data.vertices if one.select], [2])
