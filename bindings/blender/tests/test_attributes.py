"""What an object has beside its shape: materials, shading, marks, creases, vertex groups, shape keys, UV maps."""

from __future__ import annotations

import random
import unittest

import bpy
import numpy as np
from cages import CAGES, clear, set_edge_creases, set_point_creases
from compare import Quads, add_modifier, evaluated, matching, point_distance, point_matching, quads_of, refined
from compare import uv_distances
from drillolive_blender.meshes import creases_of, numbers_of

DEPTH = 2


def dressed() -> bpy.types.Object:
    """A cylinder with n-gons, three materials, shading, marks of edges, vertex groups, shape keys and two UV maps."""
    source = CAGES["cylinder"]()
    mesh, numbers = source.data, random.Random(7)
    for name in ("red", "green", "blue"):
        mesh.materials.append(bpy.data.materials.new(name))
    for face in mesh.polygons:
        face.material_index, face.use_smooth = face.index % 3, face.index % 2 == 0
    for edge in mesh.edges:
        edge.use_seam, edge.use_edge_sharp = edge.index % 3 == 0, edge.index % 4 == 0
    for name in ("first", "second", "empty"):
        group = source.vertex_groups.new(name=name)
        for vertex in mesh.vertices if name != "empty" else []:
            if vertex.index % 3:
                group.add([vertex.index], numbers.random(), "REPLACE")
    source.vertex_groups["second"].lock_weight = True
    layer = mesh.uv_layers.new(name="turned")
    values = numbers_of(mesh.uv_layers[0].data, "uv", np.float32, 2)
    layer.data.foreach_set("uv", np.ascontiguousarray(values[:, ::-1]).ravel())
    mesh.uv_layers.active_index = 1
    for kind in ("FLOAT_COLOR", "BYTE_COLOR"):
        for domain in ("POINT", "CORNER"):
            colours = mesh.color_attributes.new(f"{kind} {domain}", kind, domain)
            for item in colours.data:
                item.color = [numbers.random() for _ in range(4)]
    mesh.color_attributes.active_color_index = 2
    add_keys(source, numbers)
    return source


def add_keys(source: bpy.types.Object, numbers: random.Random) -> None:
    """Adds seven shape keys of random points, one of them relative to another."""
    source.shape_key_add(name="Basis")
    for place in range(6):
        key = source.shape_key_add(name=f"key {place}")
        for point in key.data:
            point.co = [number + numbers.uniform(-0.2, 0.2) for number in point.co]
        key.value = numbers.random()
    keys = source.data.shape_keys.key_blocks
    keys["key 2"].relative_key = keys["key 1"]
    keys["key 3"].mute = True


class Dressed(unittest.TestCase):
    """A refined object and the mesh that the modifier makes, whose corners and points are matched."""

    @classmethod
    def setUpClass(cls) -> None:
        clear()
        cls.source = dressed()
        modifier = add_modifier(cls.source, levels=DEPTH)
        cls.mesh = evaluated(cls.source)
        cls.made = refined(cls.source)
        cls.source.modifiers.remove(modifier)
        cls.shape = evaluated(cls.made)
        cls.ours, cls.theirs = quads_of(cls.shape), quads_of(cls.mesh)
        cls.corners = matching(cls.ours, cls.theirs)
        cls.points = point_matching(cls.ours, cls.theirs, cls.corners)

    @classmethod
    def tearDownClass(cls) -> None:
        clear()

    def test_keys_make_the_same_shape(self) -> None:
        """The mix of the shape keys is the mix that the modifier divides."""
        self.assertLess(point_distance(self.ours, self.theirs, self.corners), 2e-6)

    def test_each_key(self) -> None:
        """Each shape key by itself is what the modifier makes of it."""
        keys, made = self.source.data.shape_keys.key_blocks, self.made.data.shape_keys.key_blocks
        self.assertEqual([key.name for key in made], [key.name for key in keys])
        modifier = add_modifier(self.source, levels=DEPTH)
        self.source.show_only_shape_key = True
        for place, key in enumerate(made):
            with self.subTest(key=key.name):
                self.source.active_shape_key_index = place
                keys[place].mute = False
                theirs = quads_of(evaluated(self.source))
                ours = Quads(numbers_of(key.data, "co", np.float32, 3), self.ours.corners, None)
                self.assertLess(point_distance(ours, theirs, self.corners), 2e-6)
        keys["key 3"].mute = True
        self.source.show_only_shape_key = False
        self.source.modifiers.remove(modifier)

    def test_how_keys_are_mixed(self) -> None:
        """Values, relative keys, groups and muting come through."""
        self.source.data.shape_keys.key_blocks["key 4"].vertex_group = "first"
        made = refined(self.source, depth=1)
        for new, old in zip(made.data.shape_keys.key_blocks, self.source.data.shape_keys.key_blocks):
            for name in ("value", "mute", "vertex_group", "slider_min", "slider_max", "interpolation"):
                with self.subTest(key=old.name, property=name):
                    self.assertEqual(getattr(new, name), getattr(old, name))
            with self.subTest(key=old.name, property="relative_key"):
                self.assertEqual(new.relative_key.name, old.relative_key.name)

    def test_faces(self) -> None:
        """Faces have the modifier's materials and shading."""
        faces = self.corners[::4] // 4
        for name, kind in (("material_index", np.int32), ("use_smooth", bool)):
            with self.subTest(property=name):
                theirs = numbers_of(self.mesh.polygons, name, kind)[faces]
                self.assertEqual(numbers_of(self.made.data.polygons, name, kind).tolist(), theirs.tolist())
                self.assertGreater(len(set(theirs.tolist())), 1)
        self.assertEqual([one.name for one in self.made.data.materials], ["red", "green", "blue"])

    def test_edges(self) -> None:
        """Edges have the modifier's marks."""
        ends = self.points[numbers_of(self.made.data.edges, "vertices", np.int32, 2)]
        ours = {frozenset(pair): edge for pair, edge in zip(ends.tolist(), self.made.data.edges)}
        for name in ("use_seam", "use_edge_sharp"):
            with self.subTest(property=name):
                theirs = {frozenset(edge.vertices): getattr(edge, name) for edge in self.mesh.edges}
                self.assertEqual({pair: getattr(edge, name) for pair, edge in ours.items()}, theirs)
                self.assertIn(True, theirs.values())

    def test_groups(self) -> None:
        """Points have the modifier's weights in each vertex group."""
        for group in self.source.vertex_groups:
            with self.subTest(group=group.name):
                ours, theirs = weights(self.made.data, group.index), weights(self.mesh, group.index)
                moved = {int(self.points[point]): weight for point, weight in ours.items()}
                self.assertEqual(moved.keys(), theirs.keys())
                self.assertLess(max((abs(moved[point] - theirs[point]) for point in moved), default=0), 1e-6)
        names = [(group.name, group.lock_weight) for group in self.made.vertex_groups]
        self.assertEqual(names, [("first", False), ("second", True), ("empty", False)])

    def test_colours(self) -> None:
        """Points and corners have the modifier's colours, to rounding to floats or to bytes."""
        for name, items in (("POINT", self.points), ("CORNER", self.corners)):
            for kind, near in (("FLOAT_COLOR", 1e-6), ("BYTE_COLOR", 1.1 / 255)):
                with self.subTest(domain=name, kind=kind):
                    ours, theirs = (
                        numbers_of(mesh.color_attributes[f"{kind} {name}"].data, "color_srgb", np.float32, 4)
                        for mesh in (self.made.data, self.mesh)
                    )
                    self.assertLess(float(np.abs(ours - theirs[items]).max()), near)
        self.assertEqual(self.made.data.color_attributes.active_color_index, 2)

    def test_uv_maps(self) -> None:
        """Each UV map is the modifier's, and the same one is active."""
        self.assertEqual([one.name for one in self.made.data.uv_layers], ["UVMap", "turned"])
        self.assertEqual(self.made.data.uv_layers.active.name, "turned")
        for name in ("UVMap", "turned"):
            with self.subTest(map=name):
                ours, theirs = [
                    Quads(quads.points, quads.corners, numbers_of(mesh.uv_layers[name].data, "uv", np.float32, 2))
                    for quads, mesh in ((self.ours, self.made.data), (self.theirs, self.mesh))
                ]
                self.assertLess(uv_distances(ours, theirs, self.corners).max(), 2e-6)


def weights(mesh: bpy.types.Mesh, group: int) -> dict[int, float]:
    """Returns the weight of each point in a vertex group."""
    return {
        vertex.index: member.weight for vertex in mesh.vertices for member in vertex.groups if member.group == group
    }


class Creases(unittest.TestCase):
    """Creases that are left in the refined mesh."""

    def tearDown(self) -> None:
        clear()

    def test_two_steps_are_one_and_one(self) -> None:
        """A mesh that is refined twice by one step is the one that is refined by two: creases lose 1 of sharpness."""
        for name in ("creased cube", "creased points"):
            clear()
            with self.subTest(mesh=name):
                source = CAGES[name]()
                two = quads_of(refined(source, depth=2).data)
                once = quads_of(refined(refined(source, depth=1), depth=1).data)
                self.assertEqual(once.corners.tolist(), two.corners.tolist())
                self.assertLess(float(np.abs(once.points - two.points).max()), 1e-5)

    def test_what_is_left(self) -> None:
        """A crease c has the sharpness 10 c^2, and loses 1 with each step; a crease of 1 stays."""
        source = CAGES["cube"]()
        set_edge_creases(source, [0.0, 0.2, 0.5, 1.0])
        set_point_creases(source, [0.1, 0.6, 1.0])
        made = refined(source, depth=2).data
        edges = sorted({round(float(crease), 5) for crease in creases_of(made, True)})
        self.assertEqual(edges, [0.0, round((0.05) ** 0.5, 5), 1.0])
        points = [round(float(crease), 5) for crease in creases_of(made, False)]
        self.assertEqual(points[:3], [0.0, round(0.16**0.5, 5), 1.0])
        self.assertFalse(any(points[8:]))

    def test_creases_that_are_not_used(self) -> None:
        """Without creases a creased cube is a cube."""
        source = CAGES["cube"]()
        plain = quads_of(refined(source, depth=2).data)
        set_edge_creases(source, [0.7])
        self.assertNotEqual(quads_of(refined(source, depth=2).data).points.tolist(), plain.points.tolist())
        unused = quads_of(refined(source, depth=2, use_creases=False).data)
        self.assertEqual(unused.points.tolist(), plain.points.tolist())
