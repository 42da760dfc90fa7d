"""A plain, slow reference of the map: the leaf of each place of a grid on a face of a mesh.

It is written from the definitions of `subdiv_model` (Leaf, Sparse and SparseFaults), with `fractions.Fraction` for every
place, and shares nothing with the program. It finds all leaves that descend from the face, and then, for each place, the
one of least path among those whose closed square has it. `tests/reference/reference.py` answers `map` through it.
"""

from __future__ import annotations

from fractions import Fraction
from itertools import product
from typing import Iterator, NamedTuple, NoReturn, Tuple

from reference.level import POSITIONS, Level, accepted
from reference.obj import Mesh
from reference.run import NO_PLACE, Refusal
from reference.sparse import Part, by_name, parts, selected_numbers
from reference.text import line


Place = Tuple[Fraction, Fraction]


class Leaf(NamedTuple):
    """A leaf: the corners that lead to it from the face of the mesh, its level, its uniform number, and where its places
    (0, 0), (1, 0) and (0, 1) lie on the face."""

    path: tuple[int, ...]
    level: int
    number: int
    origin: Place
    along: Place
    down: Place


# Places

HALF = Fraction(1, 2)

# Where the place (s, t) of the child of each corner of a quad lies in the quad.
IN_QUAD = [
    lambda s, t: (s * HALF, t * HALF),
    lambda s, t: (1 - t * HALF, s * HALF),
    lambda s, t: (1 - s * HALF, 1 - t * HALF),
    lambda s, t: (t * HALF, 1 - s * HALF),
]
FRAME = ((0, 0), (1, 0), (0, 1))


def on_face(corners: tuple[int, ...], place: Place) -> Place:
    """Where a place of a leaf lies on the quad from which these corners lead to it."""
    for corner in reversed(corners):
        place = IN_QUAD[corner](*place)
    return place


def minus(place: Place, other: Place) -> Place:
    return place[0] - other[0], place[1] - other[1]


def part_along(vector: Place, side: Place) -> Fraction:
    """How much of a side there is in a vector."""
    return (vector[0] * side[0] + vector[1] * side[1]) / (side[0] ** 2 + side[1] ** 2)


def in_leaf(leaf: Leaf, place: Place) -> Place:
    """The place of a leaf that lies at this place on the face; it may lie outside of the leaf."""
    vector = minus(place, leaf.origin)
    return part_along(vector, minus(leaf.along, leaf.origin)), part_along(vector, minus(leaf.down, leaf.origin))


def has_place(pair: Place) -> bool:
    return all(0 <= part <= 1 for part in pair)


# Leaves


def paths_from(selected: list[set[int]], first_children: list[int], face: int) -> Iterator[tuple[tuple[int, ...], int, int]]:
    """Of each leaf that descends from a face of the mesh its path, its level and its uniform number. `first_children` has
    the number of the first child of each face of the mesh, and of one face more; later faces have four children."""
    open_paths = [((), 0, face)]
    while open_paths:
        path, level, number = open_paths.pop()
        if number not in selected[level]:
            yield path, level, number
            continue
        begin, end = first_children[face : face + 2] if level == 0 else (4 * number, 4 * number + 4)
        open_paths += [((*path, corner), level + 1, begin + corner) for corner in range(end - begin)]


def leaves_from(levels: list[Part], face: int, corner: int) -> Iterator[Leaf]:
    """The leaves that descend from a face of the mesh. Of a face that is no quad only those of this corner, whose places
    are those of its child."""
    faces = levels[0].level.mesh.faces
    first_children = [sum(map(len, faces[:number])) for number in range(len(faces) + 1)]
    is_quad = len(faces[face]) == 4
    for path, level, number in paths_from(list(map(selected_numbers, levels)), first_children, face):
        if is_quad or path[:1] in ((), (corner,)):
            frame = [on_face(path if is_quad else path[1:], place) for place in FRAME]
            yield Leaf(path, level, number, *frame)


def leaf_of(leaves: list[Leaf], place: Place) -> tuple[Leaf, Place]:
    """The leaf of a place, with the place there: of those that have it the one of least path, and they are in that order."""
    return next((leaf, pair) for leaf, pair in ((leaf, in_leaf(leaf, place)) for leaf in leaves) if has_place(pair))


# Texts


def refuse_place(what: str) -> NoReturn:
    raise Refusal(NO_PLACE, f"far: {what}")


def check_place(base: Level, face: int, corner: int) -> None:
    """Refuses a face that is not there, a corner with which the face has no places, or a hole."""
    faces = base.mesh.faces
    if face >= len(faces):
        refuse_place(f"there are {len(faces)} faces")
    size = len(faces[face])
    if corner >= (1 if size == 4 else size):
        refuse_place(f"the face has {size} corners")
    if face in base.holes:
        refuse_place(f"face {face} is a hole")


def leaf_line(place: tuple[int, int], leaf: Leaf, pair: Place, corner: int) -> str:
    """The line of a place, by its numbers in the grid. A leaf has the corner where it is the face of the mesh itself."""
    return line("p", *place, "level", leaf.level, "face", leaf.number, "corner", 0 if leaf.path else corner, "at", *pair)


def map_text(obj: Mesh, depth: int, select: bytes, on: tuple[int, int], grid: int) -> str:
    """The text of a mesh that was read, for the places on a face with a corner, or its Refusal."""
    levels, (face, corner) = list(parts(POSITIONS, accepted(obj, 0), depth, by_name(select))), on
    check_place(levels[0].level, face, corner)
    leaves = sorted(leaves_from(levels, face, corner))
    lines = []
    for j, i in product(range(grid + 1), repeat=2):
        leaf, pair = leaf_of(leaves, (Fraction(i, grid), Fraction(j, grid)))
        lines.append(leaf_line((i, j), leaf, pair, corner))
    return "".join(lines)
