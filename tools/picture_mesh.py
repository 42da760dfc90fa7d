"""What pictures show of a mesh: its points and faces, its texture, and the edges, points and faces that its tags name.

The reader is that of the reference: a text that `far` refuses by a line is refused here by the same line.
"""

from __future__ import annotations

from fractions import Fraction
from math import inf
from typing import NamedTuple, Sequence

import paths  # noqa: F401
from reference.level import Faces, base_level, sharp_edges, sides, unordered
from reference.obj import read_obj

Edge = tuple[int, int]
Face = Sequence[int]
Point = Sequence[Fraction]


class Mesh(NamedTuple):
    """A mesh to draw. Points, faces and texture values count from 0."""

    points: list[Point]
    faces: list[Face]
    creases: dict[Edge, float]  # the sharpness of each sharp edge of two faces, under its ends in order
    sharp_points: dict[int, float]
    holes: set[int]
    values: list[Point]  # the texture values
    corners: list[Face]  # of each face the texture values of its corners; empty without texture


def plain_mesh(points: list[Point], faces: list[Face]) -> Mesh:
    """A mesh without tags and without texture."""
    return Mesh(points, faces, {}, {}, set(), [], [])


def upright(point: Point, up: str) -> Point:
    """A point of a text whose axis `up`, y or z, points up, with z up."""
    x, y, z = point
    return (x, -z, y) if up == "y" else (x, y, z)


def read_mesh(data: bytes, up: str = "z") -> Mesh:
    """The mesh of an OBJ text, or the reader's Fault of its first bad line."""
    obj = read_obj(data)
    level = base_level(obj, Faces(obj.faces))
    points = [upright(tuple(Fraction(axis, obj.common) for axis in point), up) for point in obj.points]
    values = [tuple(Fraction(axis, obj.texture_common) for axis in value) for value in obj.texture]
    creases = {unordered(edge): float(level.edge_sharpness(edge)) for edge in sharp_edges(level)}
    sharp_points = {point: float(value) for point, value in level.vertex_sharpness.items()}
    return Mesh(points, obj.faces, creases, sharp_points, level.holes, values, obj.texture_corners)


def is_closed(faces: list[Face]) -> bool:
    """Whether each side of a face is a side of another face in the other direction."""
    directed = {side for face in faces for side in sides(face)}
    return all((b, a) in directed for a, b in directed)


def charts(mesh: Mesh) -> Mesh:
    """The texture of a mesh as a mesh in the plane, whose points are the texture values. It has no tags."""
    return plain_mesh([(u, v, Fraction(0)) for u, v in mesh.values], mesh.corners)


def seams(mesh: Mesh) -> list[Edge]:
    """The edges at which two faces have different texture values, at one end or at both."""
    seen, different = {}, []
    for face, corners in zip(mesh.faces, mesh.corners):
        for (a, b), (at_a, at_b) in zip(sides(face), sides(corners)):
            pair = (at_a, at_b) if a < b else (at_b, at_a)
            if seen.setdefault(unordered((a, b)), pair) != pair:
                different.append(unordered((a, b)))
    return different


def rough_edges(mesh: Mesh, least: float = inf) -> set[Edge]:
    """The edges of two faces that are at least so sharp."""
    return {edge for edge, value in mesh.creases.items() if value >= least}
