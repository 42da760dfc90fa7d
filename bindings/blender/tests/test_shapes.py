"""Points and UVs, compared with Blender's Subdivision modifier."""

from __future__ import annotations

import unittest

import bpy
import numpy as np
from cages import CAGES, clear, set_edge_creases
from compare import add_modifier, evaluated, matching, point_distance, quads_of, refined, uv_distances
from drillolive_blender.meshes import Cage, edge_keys, edge_numbers, read_cage
from drillolive_blender.settings import BOUNDARY_MODES, UV_MODES
from drillolive_blender.textures import share_values

# How far points and UVs may be apart, as a share of the size: the modifier rounds each step to floats of 32 bits.
NEAR = 2e-6

DEPTHS = (1, 2)

# The UV modes under which the point where two charts touch may move: the modifier keeps one value there.
MOVING = ("SMOOTH_ALL", "PRESERVE_CORNERS")


def half_seam_points(cage: Cage) -> np.ndarray:
    """Returns the points where two faces at an edge share a value, though they have two at its other end."""
    values = share_values(cage.uv_maps[0], cage.corners, cage.sizes).corners
    ends = np.cumsum(cage.sizes)
    following = np.arange(1, len(values) + 1)
    following[ends - 1] = ends - cage.sizes
    sides, of_sides = (np.stack([held, held[following]], 1) for held in (cage.corners, values))
    turned = sides[:, 0] > sides[:, 1]
    sides[turned], of_sides[turned] = sides[turned, ::-1], of_sides[turned, ::-1]
    order = np.argsort(edge_keys(sides), kind="stable")
    keys = edge_keys(sides)[order]
    firsts = np.flatnonzero(keys[1:] == keys[:-1])
    shared = of_sides[order[firsts]] == of_sides[order[firsts + 1]]
    halves = shared[:, 0] != shared[:, 1]
    return np.unique(sides[order[firsts[halves]]][shared[halves]])


class Shapes(unittest.TestCase):
    """Each mesh in both boundary modes, four UV modes and two depths, with the settings of a modifier."""

    def tearDown(self) -> None:
        clear()

    def test_meshes(self) -> None:
        """Points are equal to float rounding, and so are UVs, but at half seams in two modes."""
        counts = []
        for name, make in CAGES.items():
            clear()
            source = make()
            cage = read_cage(source)
            near_halves = self.faces_at(cage, half_seam_points(cage))
            for depth in DEPTHS:
                counts += self.compare(name, source, depth, near_halves)
        self.assertTrue(any("touching charts" in line for line in counts), "charts that touch are not parted")
        print("half seams, where the rules differ:", *counts, sep="\n  ")

    def faces_at(self, cage: Cage, points: np.ndarray) -> np.ndarray:
        """Returns the faces that have one of these points."""
        faces = np.repeat(np.arange(len(cage.sizes)), cage.sizes)
        return np.unique(faces[np.isin(cage.corners, points)])

    def compare(self, name: str, source: bpy.types.Object, depth: int, near_halves: np.ndarray) -> list[str]:
        """Compares one mesh at a depth in all modes. It returns a line on each mode with other UVs at half seams."""
        modifier = add_modifier(source, levels=depth)
        corners, lines = None, []
        for boundary in BOUNDARY_MODES:
            for uv_smooth in UV_MODES:
                modifier.boundary_smooth, modifier.uv_smooth = boundary, uv_smooth
                theirs, made = quads_of(evaluated(source)), refined(source)
                ours = quads_of(made.data)
                corners = matching(ours, theirs) if corners is None else corners
                with self.subTest(mesh=name, depth=depth, boundary=boundary, points=True):
                    self.assertLess(point_distance(ours, theirs, corners), NEAR)
                far = np.flatnonzero(uv_distances(ours, theirs, corners) >= NEAR)
                with self.subTest(mesh=name, depth=depth, boundary=boundary, uv_smooth=uv_smooth):
                    self.assertTrue(uv_smooth in MOVING or not len(far), f"{len(far)} UVs differ")
                    self.assertTrue(np.isin(parents_of(made, source)[far // 4], near_halves).all())
                if len(far):
                    count = f"{len(far)} of {len(corners)} corners"
                    lines.append(f"{name}, depth {depth}, {boundary}, {uv_smooth}: {count}")
                bpy.data.objects.remove(made)
        source.modifiers.clear()
        return lines


def parents_of(made: bpy.types.Object, source: bpy.types.Object) -> np.ndarray:
    """Returns the face of the source for each face that comes of it: children stand together."""
    sizes = np.array([len(face.vertices) for face in source.data.polygons])
    return np.repeat(np.arange(len(sizes)), sizes * (len(made.data.polygons) // sizes.sum()))


class Limits(unittest.TestCase):
    """Limit points, compared with the modifier's limit surface."""

    def tearDown(self) -> None:
        clear()

    def test_limit(self) -> None:
        """The modifier comes near to the limit by so many steps as its quality says."""
        cases = [("cube", [0.0]), ("cube", [0.5]), ("cube", [0.2, 0.6, 0.0]), ("grid", [0.0]), ("torus", [0.0])]
        for name, creases in cases:
            clear()
            with self.subTest(mesh=name, creases=creases):
                source = CAGES[name]()
                set_edge_creases(source, creases)
                add_modifier(source, levels=2, use_limit_surface=True, quality=6)
                theirs, ours = quads_of(evaluated(source)), quads_of(refined(source).data)
                self.assertLess(point_distance(ours, theirs, matching(ours, theirs)), 2e-5)

    def test_limit_is_no_level(self) -> None:
        """The limit points of a cube are not the points of the level."""
        source = CAGES["cube"]()
        level = quads_of(refined(source, depth=2).data)
        limit = quads_of(refined(source, depth=2, limit=True).data)
        self.assertEqual(level.corners.tolist(), limit.corners.tolist())
        self.assertGreater(float(np.abs(level.points - limit.points).max()), 0.01)


class Edges(unittest.TestCase):
    """Numbers of edges."""

    def test_edge_numbers(self) -> None:
        """An edge is found by its ends in either order, and -1 stands for none."""
        edges = np.array([[3, 1], [0, 2], [1, 2]])
        found = edge_numbers(edges, np.array([[1, 3], [2, 1], [0, 1], [2, 0]]))
        self.assertEqual(found.tolist(), [0, 2, -1, 1])
