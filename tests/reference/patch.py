"""A plain, slow reference of patches: the limit surface over a regular face inside a level, at places along its sides.

It is written from the definitions of `subdiv_model` (Patch) and `far_model` (Answer), with `fractions.Fraction` for every
value, and shares nothing with the program. `tests/reference/reference.py` answers `patch` through it.
"""

from __future__ import annotations

from fractions import Fraction
from itertools import product
from typing import Iterator

from reference.level import Level, accepted, next_level, overflow
from reference.mask import GREATEST_NUMBER, MOST_ENTRIES, Channel, Mask, Point, base_points, mask_of, masked, positions_of, stepped
from reference.obj import Mesh
from reference.run import NO_PLACE, TOO_LARGE, Refusal, mesh_of
from reference.text import line, number_text


# Faces with a patch


def is_regular_corner(level: Level, vertex: int, at_boundary: set[int]) -> bool:
    """Whether a vertex is inside, among four quads, with nothing sharp there."""
    faces, edges = level.mesh.of_point[vertex], level.mesh.edges_of_point[vertex]
    return (
        vertex not in at_boundary
        and [len(level.mesh.faces[face]) for face in faces] == [4, 4, 4, 4]
        and level.vertex_sharpness.get(vertex, 0) == 0
        and not any(level.edge_sharpness(edge) for edge in edges)
    )


def regular_faces(level: Level) -> list[int]:
    """The numbers of the faces that have a patch, in ascending order. A hole may have one."""
    at_boundary = level.mesh.points_at_boundary()
    regular = {vertex for vertex in range(level.points) if is_regular_corner(level, vertex, at_boundary)}
    return [number for number, face in enumerate(level.mesh.faces) if len(face) == 4 and regular.issuperset(face)]


def patched_levels(data: bytes, depth: int, most: int) -> list[tuple[int, Level, list[int]]]:
    """The levels to the depth that have at most so many faces, and faces with a patch: of each its number, the level and
    these faces; none of a text that is refused."""
    try:
        level = accepted(mesh_of(data), 0)
    except Refusal:
        return []
    found, number = [], 0
    while number <= depth and len(level.mesh.faces) <= most:
        found.append((number, level, regular_faces(level)))
        level, number = next_level(level), number + 1
    return [(number, level, faces) for number, level, faces in found if faces]


def check_place(level: Level, face: int) -> None:
    """Refuses a face that is not there, or that has no patch."""
    if face >= len(level.mesh.faces):
        raise Refusal(NO_PLACE, f"far: there are {len(level.mesh.faces)} faces")
    if face not in regular_faces(level):
        raise Refusal(NO_PLACE, f"far: face {face} is not a regular inner face")


# The sixteen points


def beyond(level: Level, start: int, end: int) -> tuple[int, int]:
    """Beside the start of a side, and beside its end, the corners of the quad beyond the side."""
    (face,) = level.mesh.of_side[end, start]
    quad = level.mesh.faces[face]
    place = quad.index(end)
    return quad[place - 2], quad[place - 1]


def across(level: Level, corner: int, after: int) -> int:
    """The corner opposite to this one in the quad that touches the face only there; `after` is its next corner."""
    beside, _ = beyond(level, corner, after)
    _, opposite = beyond(level, corner, beside)
    return opposite


def patch_points(level: Level, face: int) -> list[list[int]]:
    """The points of a patch, in four rows of four: the corners of the face are the inner four."""
    a, b, c, d = level.mesh.faces[face]
    (above_a, above_b), (right_b, right_c) = beyond(level, a, b), beyond(level, b, c)
    (below_c, below_d), (left_d, left_a) = beyond(level, c, d), beyond(level, d, a)
    return [
        [across(level, a, b), above_a, above_b, across(level, b, c)],
        [left_a, a, b, right_b],
        [left_d, d, c, right_c],
        [across(level, d, a), below_d, below_c, across(level, c, d)],
    ]


# Masks


def spline_weights(steps: int, place: int) -> list[int]:
    """The four weights of the uniform cubic B-spline at a place among so many steps, over six times their cube."""
    rest = steps - place
    return [
        rest**3,
        4 * steps**3 - 6 * steps * place**2 + 3 * place**3,
        4 * steps**3 - 6 * steps * rest**2 + 3 * rest**3,
        place**3,
    ]


def patch_mask(points: list[list[int]], steps: int, along: int, down: int) -> Mask:
    """The mask of a place of a patch, over the points of its level."""
    weights = product(spline_weights(steps, down), spline_weights(steps, along))
    named = [point for row in points for point in row]
    return mask_of([(point, first * second) for point, (first, second) in zip(named, weights)], (6 * steps**3) ** 2)


# Points


def check_patch(channel: Channel, points: list[Point], number: int) -> None:
    """Refuses the patch on the level with this number by its denominators, by the entries of its rows, and then by its
    values."""
    if any(point.denominator > GREATEST_NUMBER for point in points):
        raise overflow("patch", number, "denominator")
    if sum(len(point.controls) for point in points) > MOST_ENTRIES:
        raise Refusal(TOO_LARGE, "far: the patch rows have too many entries")
    if max(point.denominator for point in points) * channel.greatest() > GREATEST_NUMBER:
        raise overflow("patch", number, "value")


def patch(channel: Channel, depth: int, face: int, steps: int) -> Iterator[tuple[tuple[int, int], tuple[Fraction, ...]]]:
    """The points of the patch of a face after so many steps of the channel, by their places, or a Refusal."""
    level, points = stepped(channel, base_points(channel), depth, by_table=True)
    check_place(level, face)
    around = patch_points(level, face)
    places = [(along, down) for down in range(steps + 1) for along in range(steps + 1)]
    found = [masked(patch_mask(around, steps, *place), points) for place in places]
    check_patch(channel, found, depth)
    return zip(places, found)


# Texts


def patch_text(obj: Mesh, depth: int, face: int, steps: int) -> str:
    """The text of a mesh that was read, or its Refusal."""
    points = patch(positions_of(obj, accepted(obj, depth)), depth, face, steps)
    lines = [line("s", *place, *(number_text(axis, None) for axis in point.value)) for place, point in points]
    return "".join([line("patch", "face", face, "grid", steps), *lines])
