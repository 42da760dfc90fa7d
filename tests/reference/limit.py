"""A plain, slow reference of limit points: where the points of a level lie on the surface that further steps come to.

It is written from the definitions of `subdiv_model` (Limit) and `far_model` (Answer), with `fractions.Fraction` for every
value, and shares nothing with the program. `tests/reference/reference.py` answers `limit` through it.
"""

from __future__ import annotations

from math import inf

from reference.level import Level, accepted, overflow
from reference.mask import (
    CORNER,
    GREATEST_NUMBER,
    MOST_ENTRIES,
    SMOOTH,
    Channel,
    Mask,
    Point,
    base_points,
    each,
    mask_of,
    masked,
    positions_of,
    stepped,
)
from reference.obj import Face, Mesh, Sharpness
from reference.run import NO_LIMIT, TOO_LARGE, Refusal
from reference.text import corner_texts, line, point_lines


# Masks


def is_semi_sharp(value: Sharpness) -> bool:
    return 0 < value < inf


def lasting_rule(vertex: int, ring: list[Sharpness]) -> str | tuple[int, int] | None:
    """The rule that a vertex has at every later level, or None where it is a dart: only an infinite sharpness lasts."""
    lasting = [place for place, value in enumerate(ring) if value == inf]
    if vertex == inf or not ring or len(lasting) > 2:
        return CORNER
    return {0: SMOOTH, 1: None}.get(len(lasting), tuple(lasting))


def opposite(face: Face, vertex: int) -> int:
    """The corner of a quad that is not beside this one."""
    return face[face.index(vertex) - 2]


def smooth_mask(level: Level, vertex: int, ends: list[int]) -> Mask:
    count, faces = len(ends), [level.mesh.faces[face] for face in level.mesh.of_point[vertex]]
    opposites = [opposite(face, vertex) for face in faces]
    return mask_of([(vertex, count**2), *each(4, ends), *each(1, opposites)], count * (count + 5))


def limit_mask(level: Level, vertex: int) -> Mask | None:
    """The mask of the limit point of a vertex, over the points of its level, or a Refusal."""
    edges, sharpness = level.mesh.edges_of_point[vertex], level.vertex_sharpness.get(vertex, 0)
    ends, ring = [a + b - vertex for a, b in edges], [level.edge_sharpness(edge) for edge in edges]
    named = lasting_rule(sharpness, ring)
    if named == CORNER:
        return mask_of([(vertex, 1)], 1)
    if any(map(is_semi_sharp, [sharpness, *ring])):
        raise Refusal(NO_LIMIT, f"far: vertex {vertex} is semi-sharp")
    if named is None:
        raise Refusal(NO_LIMIT, f"far: vertex {vertex} is a dart")
    if named == SMOOTH:
        return smooth_mask(level, vertex, ends)
    return mask_of([(vertex, 4), *each(1, [ends[place] for place in named])], 6)


# Points


def check_limits(channel: Channel, points: list[Point], number: int) -> None:
    """Refuses the limit points of the level with this number by their denominators, by the entries of their rows, and then
    by their values."""
    if any(point.denominator > GREATEST_NUMBER for point in points):
        raise overflow("limit", number, "denominator")
    if sum(len(point.controls) for point in points) > MOST_ENTRIES:
        raise Refusal(TOO_LARGE, "far: the limit rows have too many entries")
    if max((point.denominator for point in points), default=1) * channel.greatest() > GREATEST_NUMBER:
        raise overflow("limit", number, "value")


def limits(channel: Channel, depth: int) -> tuple[Level, list[Point]]:
    """The level of a channel after so many steps, and the limit points of its points, or a Refusal."""
    level, points = stepped(channel, base_points(channel), depth, by_table=True)
    masks = [limit_mask(level, vertex) for vertex in range(level.points)]
    found = [masked(mask, points) for mask in masks]
    check_limits(channel, found, depth)
    return level, found


# Texts


def limit_text(obj: Mesh, depth: int, decimals: int | None) -> str:
    """The text of a mesh that was read, or its Refusal."""
    level, points = limits(positions_of(obj, accepted(obj, depth)), depth)
    faces = [line("f", *corner_texts(face)) for number, face in enumerate(level.mesh.faces) if number not in level.holes]
    return "".join([*point_lines("v", [point.value for point in points], decimals), *faces])
