"""Normals of points: the mean of the normals of the faces at each point, each weighted by the area of its face."""

from __future__ import annotations

from collections.abc import Sequence
from math import hypot
from typing import Any

from ..arrays import numpy
from .numbers import as_rows, plain

Vector = Sequence[float]
QUAD = 4


def point_normals(points: Any, sizes: Sequence[int], corners: Sequence[int]) -> Any:
    """Returns a normal of length 1 for each point, or 0 0 0 where it has no face, or faces without an area.

    Corners are the points of all faces, face by face, counted from 0.
    """
    are_quads = len(sizes) > 0 and min(sizes) == max(sizes) == QUAD
    if are_quads and numpy is not None:
        return _unit_rows(_sums_in_arrays(points, corners))
    rows = as_rows(points)
    sums = _sums_of_quads(rows, corners) if are_quads else _sums(rows, plain(sizes), corners)
    return [_unit(x, y, z) for x, y, z in zip(*sums)]


def _sums(rows: Sequence[Vector], sizes: Sequence[int], corners: Sequence[int]) -> tuple[list[float], ...]:
    """Returns for each point the three coordinates of the sum of the normals of its faces."""
    sums = tuple([0.0] * len(rows) for _ in range(3))
    first = 0
    for size in sizes:
        face = corners[first : first + size]
        first += size
        for total, part in zip(sums, _area([rows[point] for point in face])):
            for point in face:
                total[point] += part
    return sums


def _area(face: list[Vector]) -> tuple[float, float, float]:
    """Returns the normal of a face, as long as twice its area: the sum of those of a fan of triangles."""
    ax, ay, az = face[0]
    x = y = z = 0.0
    bx, by, bz = face[1][0] - ax, face[1][1] - ay, face[1][2] - az
    for point in face[2:]:
        cx, cy, cz = point[0] - ax, point[1] - ay, point[2] - az
        x, y, z = x + by * cz - bz * cy, y + bz * cx - bx * cz, z + bx * cy - by * cx
        bx, by, bz = cx, cy, cz
    return x, y, z


def _sums_of_quads(rows: Sequence[Vector], corners: Sequence[int]) -> tuple[list[float], ...]:
    """Returns what `_sums` does where all faces are quads, by their diagonals, which takes a third of the time."""
    xs, ys, zs = ([0.0] * len(rows) for _ in range(3))
    for a, b, c, d in zip(*(corners[place::QUAD] for place in range(QUAD))):
        (ax, ay, az), (bx, by, bz), (cx, cy, cz), (dx, dy, dz) = rows[a], rows[b], rows[c], rows[d]
        cx, cy, cz, dx, dy, dz = cx - ax, cy - ay, cz - az, dx - bx, dy - by, dz - bz
        x, y, z = cy * dz - cz * dy, cz * dx - cx * dz, cx * dy - cy * dx
        xs[a] += x
        xs[b] += x
        xs[c] += x
        xs[d] += x
        ys[a] += y
        ys[b] += y
        ys[c] += y
        ys[d] += y
        zs[a] += z
        zs[b] += z
        zs[c] += z
        zs[d] += z
    return xs, ys, zs


def _unit(x: float, y: float, z: float) -> tuple[float, float, float]:
    length = hypot(x, y, z)
    return (x / length, y / length, z / length) if length else (0.0, 0.0, 0.0)


def _sums_in_arrays(points: Any, corners: Sequence[int]) -> Any:
    """Returns what `_sums_of_quads` does, as an array (n, 3)."""
    places = numpy.asarray(corners, dtype=numpy.intp)
    a, b, c, d = numpy.moveaxis(numpy.asarray(points)[places.reshape(-1, QUAD)], 1, 0)
    areas = numpy.repeat(numpy.cross(c - a, d - b), QUAD, axis=0)
    return numpy.stack([numpy.bincount(places, areas[:, axis], len(points)) for axis in range(3)], axis=1)


def _unit_rows(rows: Any) -> Any:
    length = numpy.hypot(numpy.hypot(rows[:, 0], rows[:, 1]), rows[:, 2])[:, None]
    return numpy.divide(rows, length, out=numpy.zeros_like(rows), where=length > 0)
