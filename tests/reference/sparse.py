"""A plain, slow reference of sparse levels: of each level the points and faces that are present, and of what kind each
face is, with texture where it is asked for.

It is written from the definitions of `subdiv_model` (Feature, Sparse, SparseFaults, SparseText and SparseTexture) over
uniform levels, of which it makes only the values of present points. A level of many faces loses those that are far from
selected ones, since nothing here depends on them. It shares nothing with the program. `tests/reference/reference.py` answers
`sparse` through it.
"""

from __future__ import annotations

from dataclasses import dataclass
from math import inf
from typing import Callable, Iterable, Iterator, List

from reference.level import (
    GREATEST_LEVEL,
    Faces,
    Level,
    accepted,
    has_fine_halves,
    next_level,
    overflow,
    semi_sharp_at,
    sharp_edges,
    sides,
    unordered,
)
from reference.mask import (
    Channel,
    Point,
    base_points,
    check_numbers,
    check_weights,
    edge_mask,
    face_mask,
    masked,
    positions_of,
    vertex_mask,
)
from reference.obj import Mesh
from reference.run import TOO_LARGE, Refusal
from reference.text import corner_texts, line, point_lines, textured_corner_texts
from reference.texture import texture_of

# A level of at most this many faces keeps them all.
MOST_KEPT = 1000


# Of the number of a level, the level, and the uniform numbers of its faces: the faces that are selected.
Rule = Callable[[int, Level, List[int]], List[int]]


# Which faces can be selected


def rough_points(level: Level) -> set[int]:
    """The points that are sharp, or have a sharp edge of two faces."""
    return set(level.vertex_sharpness) | {end for edge in sharp_edges(level) for end in edge}


def is_regular_at_boundary(level: Level, point: int, rough: set[int]) -> bool:
    """Whether a point at the boundary is smooth between two faces, or infinitely sharp in one."""
    faces = len(level.mesh.of_point[point])
    return faces == 2 and point not in rough or faces == 1 and level.vertex_sharpness.get(point, 0) == inf


def regular_points(level: Level) -> set[int]:
    """The points that have faces and are regular; inside they are smooth and have four edges."""
    mesh, at_boundary, rough = level.mesh, level.mesh.points_at_boundary(), rough_points(level)
    return {
        point
        for point in mesh.used_points()
        if (point in at_boundary and is_regular_at_boundary(level, point, rough))
        or (point not in at_boundary and len(mesh.edges_of_point[point]) == 4 and point not in rough)
    }


def selectable(level: Level) -> list[int]:
    """The faces that are no holes."""
    return [face for face in range(len(level.mesh.faces)) if face not in level.holes]


def features(level: Level) -> list[int]:
    """The faces that are no holes, and are no quads or have a corner that is not regular."""
    faces, regular = level.mesh.faces, regular_points(level)
    return [face for face in selectable(level) if len(faces[face]) != 4 or not regular.issuperset(faces[face])]


# The faces of a level that each rule has.
RULES = {b"feature": features, b"all": selectable}


def by_name(select: bytes) -> Rule:
    """The rule of this name: the faces that it has of the level with a number, whose faces have these uniform numbers."""
    return lambda number, level, numbers: RULES[select](level)


def by_numbers(selected: list[set[int]]) -> Rule:
    """The rule that has at each level the faces with these uniform numbers, and no holes."""
    return lambda number, level, numbers: [face for face in selectable(level) if numbers[face] in selected[number]]


# Sparse levels


@dataclass
class Part:
    """A uniform level, or the part of it that its selected faces and their neighbours come of: the level, and of each of
    its faces the uniform number, ascending. The other faces are given by their places in the level: those that are present,
    ascending; those that have a selected parent; and those that are selected."""

    level: Level
    numbers: list[int]
    present: list[int]
    inner: set[int]
    selected: set[int]


def selected_of(number: int, level: Level, numbers: list[int], inner: set[int], rule: Rule | None) -> set[int]:
    """Those of the inner faces that the rule has, none where there is no rule."""
    return inner.intersection(rule(number, level, numbers)) if rule else set()


def first(base: Level, rule: Rule | None) -> Part:
    """Level 0, all of whose faces are present and inner."""
    every = list(range(len(base.mesh.faces)))
    return Part(base, every, every, set(every), selected_of(0, base, every, set(every), rule))


def points_of(level: Level, faces: Iterable[int]) -> list[int]:
    """The points of these faces, by first appearance."""
    return list(dict.fromkeys(vertex for face in faces for vertex in level.mesh.faces[face]))


def corners_of(level: Level) -> list[tuple[int, int]]:
    """The face and the vertex of each corner; the faces of the next level are in the order of the corners."""
    return [(number, vertex) for number, face in enumerate(level.mesh.faces) for vertex in face]


def child_numbers(part: Part, number: int) -> list[int]:
    """The uniform numbers of the children of all faces, where the next level has this number. From level 1 on the uniform
    level has four children of each face."""
    if number == 1:
        return list(range(sum(map(len, part.level.mesh.faces))))
    return [4 * face + corner for face in part.numbers for corner in range(4)]


def kept_faces(level: Level, faces: list[int]) -> Level:
    """A level with only some of its faces. Its points keep their numbers."""
    polygons = [level.mesh.faces[face] for face in faces]
    edges = {unordered(side) for polygon in polygons for side in sides(polygon)}
    sharpness = {edge: value for edge, value in level.sharpness.items() if edge in edges}
    holes = {place for place, face in enumerate(faces) if face in level.holes}
    return Level(level.points, Faces(polygons), holes, sharpness, level.vertex_sharpness, level.method)


def kept_children(level: Level, selected: set[int]) -> list[int]:
    """The children, by their places, that are kept of a level with these selected faces: all of few faces, and else those
    of the faces that touch selected ones."""
    corners = corners_of(level)
    if len(corners) <= MOST_KEPT:
        return list(range(len(corners)))
    near = set(points_of(level, selected))
    touching = {face for face, polygon in enumerate(level.mesh.faces) if near.intersection(polygon)}
    return [child for child, (face, _) in enumerate(corners) if face in touching]


def check_faces(track: str, level: Level, near: set[int], number: int) -> None:
    """Refuses the next level, which has this number and the children at these vertices, by the count of its faces, and
    then by the sharpness at the vertices."""
    count = sum(vertex in near for _, vertex in corners_of(level))
    if count > GREATEST_LEVEL:
        raise Refusal(TOO_LARGE, f"far: level {number} has {count} faces")
    values = semi_sharp_at(level)
    if level.method == b"chaikin" and any(has_fine_halves(values[vertex]) for vertex in near if vertex in values):
        raise overflow(track, number, "chaikin")


def next_part(track: str, part: Part, rule: Rule | None, number: int) -> Part:
    """The next level, which has this number, or a Refusal. Its present faces are the children at vertices of selected
    faces, and its inner faces all children of these."""
    parent, near = part.level, set(points_of(part.level, part.selected))
    check_faces(track, parent, near, number)
    kept, numbers, corners = kept_children(parent, part.selected), child_numbers(part, number), corners_of(parent)
    level, numbers = kept_faces(next_level(parent), kept), [numbers[child] for child in kept]
    present = [place for place, child in enumerate(kept) if corners[child][1] in near]
    inner = {place for place, child in enumerate(kept) if corners[child][0] in part.selected}
    return Part(level, numbers, present, inner, selected_of(number, level, numbers, inner, rule))


def parts(track: str, base: Level, depth: int, rule: Rule) -> Iterator[Part]:
    """The levels from 0 to the depth, one after another, of which the last has no selected faces; or the Refusal of a
    level by its faces or by its sharpness."""
    part = first(base, rule if depth > 0 else None)
    yield part
    for number in range(1, depth + 1):
        part = next_part(track, part, rule if number < depth else None, number)
        yield part


def selected_numbers(part: Part) -> set[int]:
    """The uniform numbers of the selected faces of a level."""
    return {part.numbers[face] for face in part.selected}


# Points


class Sources(dict):
    """Points of a level by their numbers, and the new points of its faces, each of which is made when it is first asked
    for. No other point is asked for."""

    def __init__(self, level: Level, points: dict[int, Point]):
        super().__init__(points)
        self.level = level

    def __missing__(self, number: int) -> Point:
        if number < self.level.points:
            raise KeyError(f"point {number} is not present")
        self[number] = masked(face_mask(self.level.mesh.faces[number - self.level.points]), self)
        return self[number]


def child_point(channel: Channel, level: Level, sources: Sources, number: int) -> Point:
    """The point of the next level with this number: it comes of a vertex, a face or an edge."""
    first_edge_point = level.points + len(level.mesh.faces)
    if number < level.points:
        return masked(vertex_mask(channel, level, number), sources)
    if number < first_edge_point:
        return sources[number]
    return masked(edge_mask(channel, level, level.mesh.edges[number - first_edge_point]), sources)


@dataclass
class Sparse:
    """A level, and its points that are present, by their numbers."""

    part: Part
    points: dict[int, Point]


def next_points(channel: Channel, before: Sparse, part: Part, number: int) -> dict[int, Point]:
    """The points of the next level, which has this number, from the level before it; or a Refusal. The weights of vertices
    are asked where their new points are present."""
    level, numbers = before.part.level, points_of(part.level, part.present)
    check_weights(channel, level, [point for point in numbers if point < level.points], number)
    sources = Sources(level, before.points)
    points = {point: child_point(channel, level, sources, point) for point in numbers}
    check_numbers(channel, list(points.values()), number, True)
    return points


def sparse_levels(channel: Channel, depth: int, rule: Rule) -> list[Sparse]:
    """The levels from 0 to the depth with their points, or a Refusal. All points of level 0 are present."""
    levels = []
    for number, part in enumerate(parts(channel.track, channel.base, depth, rule)):
        points = next_points(channel, levels[-1], part, number) if levels else dict(enumerate(base_points(channel)))
        levels.append(Sparse(part, points))
    return levels


# Texts


def kind_of(part: Part, face: int) -> str:
    if face in part.level.holes:
        return "h"
    if face not in part.inner:
        return "r"
    return "s" if face in part.selected else "l"


def written_points(sparse: Sparse, keyword: str, decimals: int | None) -> list[str]:
    """The lines of the points that are written: those of the present faces, also at level 0."""
    numbers = points_of(sparse.part.level, sparse.part.present)
    return point_lines(keyword, [sparse.points[point].value for point in numbers], decimals)


def written_corners(part: Part) -> dict[int, list[int]]:
    """Of each present face, by its uniform number, its corners among the points that are written."""
    places = {point: place for place, point in enumerate(points_of(part.level, part.present))}
    faces = part.level.mesh.faces
    return {part.numbers[face]: [places[vertex] for vertex in faces[face]] for face in part.present}


def face_lines(part: Part, texture: Sparse | None) -> Iterator[str]:
    """The lines of the present faces; where the texture, if there is one, has a face, its corners have texture points."""
    own, other = written_corners(part), written_corners(texture.part) if texture else {}
    for face in part.present:
        number = part.numbers[face]
        with_texture = number in other
        corners = textured_corner_texts((own[number], other[number])) if with_texture else corner_texts(own[number])
        yield line("f", kind_of(part, face), number, *corners)


def level_text(number: int, sparse: Sparse, texture: Sparse | None, decimals: int | None) -> str:
    """The text of a level, with its texture where there is one."""
    points, values = written_points(sparse, "v", decimals), written_points(texture, "vt", decimals) if texture else []
    counts = ["points", len(points), "faces", len(sparse.part.present), *(["texture", len(values)] if texture else [])]
    return "".join([line("level", number, *counts), *points, *values, *face_lines(sparse.part, texture)])


def sparse_text(obj: Mesh, depth: int, select: bytes, decimals: int | None, uv: bytes) -> str:
    """The text of a mesh that was read, with the faces selected by a rule, or its Refusal. The texture follows the
    positions, where there is one and it is asked for; its selected faces are those of the positions."""
    base = accepted(obj, 0)
    levels = sparse_levels(positions_of(obj, base), depth, by_name(select))
    textures = [None] * len(levels)
    if uv != b"none" and obj.has_texture:
        textures = sparse_levels(texture_of(obj, base, uv), depth, by_numbers([selected_numbers(sparse.part) for sparse in levels]))
    return "".join(level_text(number, *pair, decimals) for number, pair in enumerate(zip(levels, textures)))
