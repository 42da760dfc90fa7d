"""Large meshes as OBJ texts, for `bench/bench.py`: ordinary ones, and ones that are made to take long.

Each is given how many faces it is to have, or corners where it has one face, and has about as many. The meshes of this
module have no random part, and the texts come out the same each time."""

from __future__ import annotations

import math
from functools import partial
from itertools import chain, product
from pathlib import Path
from typing import Iterable, Iterator, NamedTuple

import paths  # noqa: F401
from colliding_edges import colliding_pairs
from make_examples import BLOCKS, EXAMPLES
from mesh_makers import CUBE_FACES, Cell, Face, grid, moved, surface, torus as torus_mesh
from reference.level import sides, unordered

GREATEST_SIZE = 2**16
GOOD, BAD_MESH, TOO_LARGE = 0, 6, 7
# How many quads a chart of the textured sheet has in a row and in a column.
CHART = 16


class Mesh(NamedTuple):
    """The lines of a text; how many faces it has, or corners where it is one face, or moves; how many corners, or moves;
    and how `levels depth=0` ends on it, or how `frames depth=1` does."""

    lines: Iterable[str]
    faces: int
    corners: int
    status: int
    first_line: str


class Made(NamedTuple):
    """A text that was made: its file, and what is wanted of the run."""

    path: Path
    faces: int
    status: int
    first_line: str


def point_lines(points: Iterable) -> Iterator[str]:
    return (f"v {x} {y} {z}" for x, y, z in points)


def flat_lines(count: int) -> Iterator[str]:
    return point_lines((number, 0, 0) for number in range(count))


def face_lines(faces: Iterable[Iterable[int]]) -> Iterator[str]:
    """The lines of faces, of which each corner is the number of a point from 0."""
    return ("f " + " ".join(str(corner + 1) for corner in face) for face in faces)


def textured_lines(faces: Iterable[Iterable[int]], corners: Iterable[Iterable[int]]) -> Iterator[str]:
    """The lines of faces with texture: of each corner the numbers of its point and of its value, from 0."""
    pairs = (zip(face, names) for face, names in zip(faces, corners))
    return ("f " + " ".join(f"{point + 1}/{value + 1}" for point, value in face) for face in pairs)


def refused(lines: Iterable[str], faces: int, corners: int, line: str, status: int = BAD_MESH) -> Mesh:
    return Mesh(lines, faces, corners, status, f"far: {line}")


def taken(
    lines: Iterable[str],
    corners: int,
    points: int,
    edges: int,
    faces: int,
    *,
    euler: int = 0,
    boundary: int = 0,
    holes: int = 0,
    sharp: int = 0,
    extraordinary: int = 0,
) -> Mesh:
    """A mesh without fault, with these counts."""
    counts = f"points {points} edges {edges} faces {faces} euler {euler} boundary {boundary}"
    line = f"level 0 {counts} holes {holes} sharp {sharp} extraordinary {extraordinary}"
    return Mesh(lines, faces, corners, GOOD, line)


# Made to take long


def scattered(count: int) -> Iterator[int]:
    """The numbers below a count, each once, and far from the one before."""
    step = max(int(count * 0.618), 1)
    while math.gcd(step, count) > 1:
        step += 1
    return (number * step % count for number in range(count))


def wheel(size: int) -> Mesh:
    """Triangles that go once round the point 0, in no order."""
    faces = ((0, k + 1, (k + 1) % size + 1) for k in scattered(size))
    lines = chain(flat_lines(size + 1), face_lines(faces))
    if size > GREATEST_SIZE:
        return refused(lines, size, 3 * size, f"vertex 0 has {size} edges", TOO_LARGE)
    extraordinary = 0 if size == 4 else 1
    return taken(lines, 3 * size, size + 1, 2 * size, size, euler=1, boundary=size, extraordinary=extraordinary)


def two_wheels(size: int) -> Mesh:
    """Triangles that go twice round the point 0, by turns."""
    half = size // 2
    faces = ((0, k + turn * half + 1, (k + 1) % half + turn * half + 1) for k in range(half) for turn in range(2))
    lines = chain(flat_lines(2 * half + 1), face_lines(faces))
    return refused(lines, 2 * half, 6 * half, "vertex 0 joins more than one fan")


def one_edge(size: int) -> Mesh:
    lines = chain(flat_lines(size + 2), face_lines((0, 1, k + 2) for k in range(size)))
    return refused(lines, size, 3 * size, "edge 0 1 has more than two faces")


def one_face(size: int) -> Mesh:
    lines = chain(flat_lines(size), face_lines([range(size)]))
    if size > GREATEST_SIZE:
        return refused(lines, size, size, f"face 0 has {size} corners", TOO_LARGE)
    return taken(lines, size, size, size, 1, euler=1, boundary=size)._replace(faces=size)


def colliding(size: int) -> Mesh:
    """Triangles that share nothing, each with an edge whose hash under the key 0 is near those of the others."""
    numbers = 12 * size // 5
    faces = ((*pair, numbers + k) for k, pair in enumerate(colliding_pairs(size, numbers)))
    lines = chain(flat_lines(numbers + size), face_lines(faces))
    return taken(lines, 3 * size, numbers + size, 3 * size, size, euler=size, boundary=3 * size)


# Tori and sheets of quads


def torus_lines(size: int, last_turned: bool) -> tuple[Iterator[str], int]:
    """The lines of a torus of about this size, whose last quad may be turned over; and how many quads a ring has."""
    side = math.isqrt(size)
    points, faces = torus_mesh(side, side, 30000, 12000)
    turned = [faces[-1][::-1]] if last_turned else faces[-1:]
    return chain(point_lines(points), face_lines(faces[:-1] + turned)), side


def torus(size: int) -> Mesh:
    lines, side = torus_lines(size, last_turned=False)
    return taken(lines, 4 * side * side, side * side, 2 * side * side, side * side)


def turned_torus(size: int) -> Mesh:
    """A torus whose last face is turned over, of whose edges the first one appears at the end of the first ring."""
    lines, side = torus_lines(size, last_turned=True)
    return refused(lines, side * side, 4 * side * side, f"edge 0 {side - 1} is used twice in one direction")


def sheet_points(side: int) -> Iterator[tuple[int, int, int]]:
    """Rows of points ten apart, of heights that go up and down."""
    places = product(range(side + 1), repeat=2)
    return ((10 * column, 10 * row, (3 * row + 5 * column) % 7) for row, column in places)


def sheet_faces(side: int) -> list[Face]:
    return grid(side, side, False, False)[1]


def taken_sheet(side: int, lines: Iterable[str], **counts: int) -> Mesh:
    edges = 2 * side * (side + 1)
    return taken(lines, 4 * side * side, (side + 1) ** 2, edges, side * side, euler=1, boundary=4 * side, **counts)


def sheet(size: int) -> Mesh:
    side = math.isqrt(size)
    return taken_sheet(side, chain(point_lines(sheet_points(side)), face_lines(sheet_faces(side))))


def crease_lines(side: int) -> Iterator[str]:
    """A crease along each row of points, by turns of three kinds."""
    wide = side + 1
    for row in range(wide):
        points = " ".join(str(row * wide + column) for column in range(wide))
        yield f"t crease {wide}/1/0 {points} {('3/2', '7/2', '10')[row % 3]}"


def creased_sheet(size: int) -> Mesh:
    side = math.isqrt(size)
    lines = chain(point_lines(sheet_points(side)), face_lines(sheet_faces(side)), crease_lines(side))
    return taken_sheet(side, lines, sharp=side * (side - 1))


def hidden_sheet(size: int) -> Mesh:
    """A creased sheet, the faces at whose boundary are hidden."""
    side = math.isqrt(size)
    lines = chain(creased_sheet(size).lines, ["t interpolateboundary 1/0/0 0"])
    return taken_sheet(side, lines, holes=4 * side - 4, sharp=side * (side - 1))


def chart_values(side: int) -> Iterator[str]:
    """The texture values of a sheet in square charts, which lie apart: all the rows of all charts."""
    wide = (CHART + 1) * -(-side // CHART)
    return (f"vt {column / wide:.6f} {row / wide:.6f}" for row in range(wide) for column in range(wide))


def chart_corners(side: int) -> Iterator[tuple[int, int, int, int]]:
    """Of each face of a sheet the numbers of its corners' texture values."""
    wide = (CHART + 1) * -(-side // CHART)
    for row in range(side):
        for column in range(side):
            first = (row + row // CHART) * wide + column + column // CHART
            yield first, first + 1, first + wide + 1, first + wide


def textured_sheet(size: int) -> Mesh:
    side = math.isqrt(size)
    faces = textured_lines(sheet_faces(side), chart_corners(side))
    return taken_sheet(side, chain(point_lines(sheet_points(side)), chart_values(side), faces))


# Moves


def moved_cube(size: int) -> Mesh:
    """The cube with moves of each point in turn, and a line `go`."""
    moves = (f"move {k % 8} {k % 7 - 3} {k % 5 - 2} {k % 3 - 1}" for k in range(size))
    lines = chain([(EXAMPLES / "cube.obj").read_text() + "frames"], moves, ["go"])
    return Mesh(lines, size, size, GOOD, "frame 26")


# The character: the dog of unit cubes, each cut into as many along each edge, rounded off, and written as exporters do


def dog_cubes() -> set[Cell]:
    return {cube for block in BLOCKS.values() for cube in product(*block)}


def cut_cubes(cuts: int) -> set[Cell]:
    """The cubes of the dog, each cut into smaller ones."""
    parts = list(product(range(cuts), repeat=3))
    return {tuple(cuts * a + b for a, b in zip(cube, part)) for cube in dog_cubes() for part in parts}


def cut_dog(cuts: int) -> tuple[list[Cell], list[Face]]:
    """The points and the outer quads of the dog."""
    return surface(cut_cubes(cuts))


def rounded_off(points: list, faces: list[Face], rounds: int = 4) -> list[tuple[float, ...]]:
    """The points, each moved a few times to the middle of those that are its neighbours along an edge."""
    neighbours = [set() for _ in points]
    for face in faces:
        for a, b in sides(face):
            neighbours[a].add(b)
            neighbours[b].add(a)
    for _ in range(rounds):
        points = [tuple(sum(points[n][axis] for n in near) / len(near) for axis in range(3)) for near in neighbours]
    return points


def plane_of(points: list[Cell]) -> tuple[int, int]:
    """The axis along which points are the same, and where they are along it."""
    return next((axis, points[0][axis]) for axis in range(3) if len({point[axis] for point in points}) == 1)


def unfolded(points: list[Cell], faces: list[Face]) -> tuple[list[tuple[float, float]], list[list[int]], list[int]]:
    """Texture with a chart for each plane of the dog, each in a square of its own: the values, and of each face the
    numbers of its corners' values and its axis."""
    planes = [plane_of([points[corner] for corner in face]) for face in faces]
    squares = {plane: number for number, plane in enumerate(sorted(set(planes)))}
    squares_wide = math.isqrt(len(squares) - 1) + 1
    extent = 1 + max(max(point) for point in points)
    numbers, values, corners = {}, [], []
    for face, (axis, place) in zip(faces, planes):
        row, column = divmod(squares[axis, place], squares_wide)
        for corner in face:
            if (axis, place, corner) not in numbers:
                numbers[axis, place, corner] = len(values)
                u, v = (points[corner][other] / extent for other in range(3) if other != axis)
                values.append(((column + u) / squares_wide, (row + v) / squares_wide))
        corners.append([numbers[axis, place, corner] for corner in face])
    return values, corners, [axis for axis, _ in planes]


def character_lines(cuts: int, with_texture: bool) -> Iterator[str]:
    points, faces = cut_dog(cuts)
    values, corners, axes = unfolded(points, faces)
    yield from ("# a character, as exporters write it", "mtllib character.mtl", "o Character")
    yield from (f"v {x / cuts:.6f} {y / cuts:.6f} {z / cuts:.6f}" for x, y, z in rounded_off(points, faces))
    yield from ("vn 1.0000 0.0000 0.0000", "vn 0.0000 1.0000 0.0000", "vn 0.0000 0.0000 1.0000")
    yield from (f"vt {u:.6f} {v:.6f}" for u, v in values if with_texture)
    yield from ("s 1", "usemtl Skin")
    for face, names, axis in zip(faces, corners, axes):
        words = (f"{a + 1}/{b + 1 if with_texture else ''}/{axis + 1}" for a, b in zip(face, names))
        yield "f " + " ".join(words)


def character(size: int, with_texture: bool = False) -> Mesh:
    """The dog, with 340 faces where each cube is whole."""
    cuts = max(round(math.sqrt(size / 340)), 1)
    faces = 340 * cuts * cuts
    return taken(character_lines(cuts, with_texture), 4 * faces, faces + 2, 2 * faces, faces, euler=2, extraordinary=86)


def textured_character(size: int) -> Mesh:
    return character(size, with_texture=True)


# The character with features: bumps on the dog, and creases about its body and its hind legs


def outer_faces() -> list[tuple[Cell, Cell]]:
    """The outer faces of the dog, each the cube and the direction that it looks in, far from the one before."""
    cubes = dog_cubes()
    faces = sorted((cube, way) for cube in cubes for way in CUBE_FACES if moved(cube, way) not in cubes)
    return [faces[place] for place in scattered(len(faces))]


def bump(cube: Cell, way: Cell, cuts: int) -> set[Cell]:
    """The small cubes of a bump on the middle of a face. It gives eight points another number of edges than four."""
    size = cuts // 4
    starts = {-1: -size, 0: (cuts - size) // 2, 1: cuts}
    firsts = (cuts * a + starts[step] for a, step in zip(cube, way))
    return set(product(*(range(first, first + size) for first in firsts)))


def ring_lines(points: list[Cell], faces: list[Face], cuts: int, sharpness: str) -> list[str]:
    """A crease for each edge about the middle of the body and about the hind legs."""
    edges = {unordered(side) for face in faces for side in sides(face)}
    body = {number for number, (x, _, _) in enumerate(points) if x == 5 * cuts}
    legs = {number for number, (x, _, z) in enumerate(points) if z == cuts and x < 6 * cuts}
    named = [edge for edge in sorted(edges) if body.issuperset(edge) or legs.issuperset(edge)]
    return [f"t crease 2/1/0 {a} {b} {sharpness}" for a, b in named]


def featured_lines(points: list[Cell], faces: list[Face], cuts: int) -> Iterator[str]:
    places = ([round(1000 * axis / cuts) for axis in point] for point in rounded_off(points, faces))
    return chain(point_lines(places), face_lines(faces))


def featured(cuts: int, bumps: int, sharpness: str) -> Mesh:
    """The dog with bumps, and creases of this sharpness."""
    cubes = cut_cubes(cuts).union(*(bump(*face, cuts) for face in outer_faces()[:bumps]))
    points, faces = surface(cubes)
    creases, count = ring_lines(points, faces, cuts, sharpness), len(faces)
    lines = chain(featured_lines(points, faces, cuts), creases)
    sharp, extraordinary = len(creases), 86 + 8 * bumps
    return taken(lines, 4 * count, count + 2, 2 * count, count, euler=2, sharp=sharp, extraordinary=extraordinary)


def featured_character(size: int, sharpness: str) -> Mesh:
    """The character with 302 points of another number of edges than four, and about 200 creased edges where it has 20,000
    faces."""
    return featured(max(round(math.sqrt(size / 340)), 4), 27, sharpness)


semi_sharp_character = partial(featured_character, sharpness="3")
creased_character = partial(featured_character, sharpness="10")


def bumpy_character(bumps: int) -> Mesh:
    """The character of about 20,000 faces with bumps."""
    return featured(8, bumps, "3")


def cube(size: int) -> Mesh:
    """The cube, whatever its size is to be."""
    text = (EXAMPLES / "cube.obj").read_text().splitlines()
    return taken(text, 24, 8, 12, 6, euler=2, extraordinary=8)
