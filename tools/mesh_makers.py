"""Meshes that are made by rule: sheets and tori of quads, fans, prisms, bipyramids, and the outer faces of unit cubes.

Faces are counterclockwise from outside, and points count from 0.
"""

from __future__ import annotations

import math
from itertools import product

Cell = tuple[int, int, int]
Face = tuple[int, ...]
Made = tuple[int, list[Face]]

# The corners of a unit cube's faces, by the direction that each looks in.
CUBE_FACES = {
    (1, 0, 0): ((1, 0, 0), (1, 1, 0), (1, 1, 1), (1, 0, 1)),
    (-1, 0, 0): ((0, 0, 0), (0, 0, 1), (0, 1, 1), (0, 1, 0)),
    (0, 1, 0): ((0, 1, 0), (0, 1, 1), (1, 1, 1), (1, 1, 0)),
    (0, -1, 0): ((0, 0, 0), (1, 0, 0), (1, 0, 1), (0, 0, 1)),
    (0, 0, 1): ((0, 0, 1), (1, 0, 1), (1, 1, 1), (0, 1, 1)),
    (0, 0, -1): ((0, 0, 0), (0, 1, 0), (1, 1, 0), (1, 0, 0)),
}


def grid(rows: int, columns: int, closed_rows: bool, closed_columns: bool) -> Made:
    """The number of points, and the quads, in rows and columns. Either may close to a ring, of three or more then."""
    across = columns if closed_columns else columns + 1
    down = rows if closed_rows else rows + 1

    def point(row: int, column: int) -> int:
        return row % down * across + column % across

    faces = [
        (point(row, column), point(row, column + 1), point(row + 1, column + 1), point(row + 1, column))
        for row, column in product(range(rows), range(columns))
    ]
    return down * across, faces


def torus(rings: int, sides: int, great: float, small: float) -> tuple[list[Cell], list[Face]]:
    """The points of a torus of these two radii, rounded to whole numbers, and its quads."""
    turns = [[(math.cos(angle), math.sin(angle)) for angle in angles_of(count)] for count in (rings, sides)]
    points = [
        (round((great + small * across) * x), round((great + small * across) * y), round(small * up))
        for (x, y), (across, up) in product(*turns)
    ]
    return points, [(a, d, c, b) for a, b, c, d in grid(rings, sides, True, True)[1]]


def angles_of(count: int) -> list[float]:
    return [2 * math.pi * step / count for step in range(count)]


def fan(sizes: list[int], is_closed: bool) -> Made:
    """The number of points, and faces of these sizes round the point 0. They may close to a ring, of three or more then."""
    count, first, faces = 2, 1, []
    for number, size in enumerate(sizes):
        last = is_closed and number == len(sizes) - 1
        added = list(range(count, count + size - (3 if last else 2)))
        faces.append((0, first, *added, *([1] if last else [])))
        count += len(added)
        first = added[-1] if added else first
    return count, faces


def prism(size: int) -> Made:
    """The number of points, and two faces of this size with a quad at each of their edges."""
    top = tuple(range(size, 2 * size))
    bottom = tuple(range(size - 1, -1, -1))
    return 2 * size, [bottom, top] + [(a, (a + 1) % size, (a + 1) % size + size, a + size) for a in range(size)]


def bipyramid(size: int) -> Made:
    """The number of points, and two triangles at each edge of a ring, one at either pole."""
    ring = [(corner, (corner + 1) % size) for corner in range(size)]
    return size + 2, [(a, b, size) for a, b in ring] + [(b, a, size + 1) for a, b in ring]


def moved(place: Cell, step: Cell) -> Cell:
    return tuple(a + b for a, b in zip(place, step))


def surface(cubes: set[Cell]) -> tuple[list[Cell], list[Face]]:
    """The points and the outer faces of a set of unit cubes."""
    points, faces = {}, []
    for cube in sorted(cubes):
        for direction, corners in CUBE_FACES.items():
            if moved(cube, direction) not in cubes:
                faces.append(tuple(points.setdefault(moved(cube, corner), len(points)) for corner in corners))
    return list(points), faces
