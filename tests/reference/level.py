"""A plain, slow reference of levels and of `far levels`: what is wrong with a mesh or its levels, or their counts.

It is written from the definitions of `subdiv_model` (MeshFault, Manifold, Edges, Base, Child, Sharpness, Channel,
LevelText and Answer), with `fractions.Fraction` for every sharpness, and shares nothing with the program.
`tests/reference/reference.py` answers `levels` through it.
"""

from __future__ import annotations

from collections import Counter, defaultdict
from dataclasses import dataclass
from fractions import Fraction
from math import inf, lcm
from typing import Iterable, Iterator

from reference.obj import EDGE_AND_CORNER, HIDDEN, Edge, Face, Mesh, Sharpness
from reference.run import BAD_MESH, OVERFLOW, TOO_LARGE, Refusal

GREATEST_COUNT = 2**20
GREATEST_SIZE = 2**16
GREATEST_LEVEL = 2**22
GREATEST_DENOMINATOR = 2**60
LEAST_INFINITE = 10
# The track of the values that a level carries: the positions have it here, and the texture elsewhere.
POSITIONS = "positions"


# Sides, edges, and the faces that meet


def sides(face: Face) -> list[Edge]:
    """The directed edges of a face: each corner with the next one, and the last with the first."""
    return list(zip(face, face[1:] + face[:1]))


def unordered(side: Edge) -> Edge:
    """An edge as a key: the same for both of its directions."""
    return min(side), max(side)


class Faces:
    """The faces of a mesh with what meets: `sides` over faces and corners; `edges` by first appearance, each as it first
    appears; how often each edge and each side is used; the faces of each edge, side and point, and the edges of each
    point. Faces and edges are in ascending order, and each is there once."""

    def __init__(self, faces: list[Face]):
        self.faces = faces
        self.sides = [side for face in faces for side in sides(face)]
        self.times_used = Counter(self.sides)
        self.edge_uses = Counter(map(unordered, self.sides))
        self.edges = self.first_named()
        self.of_point, self.of_side, self.of_edge = defaultdict(list), defaultdict(list), defaultdict(list)
        for number, face in enumerate(faces):
            self.add_face(number, face)
        self.edges_of_point = defaultdict(list)
        for edge in self.edges:
            for end in set(edge):
                self.edges_of_point[end].append(edge)

    def first_named(self) -> list[Edge]:
        first = {}
        for side in self.sides:
            first.setdefault(unordered(side), side)
        return list(first.values())

    def add_face(self, number: int, face: Face) -> None:
        for vertex in set(face):
            self.of_point[vertex].append(number)
        for side in set(sides(face)):
            self.of_side[side].append(number)
        for edge in set(map(unordered, sides(face))):
            self.of_edge[edge].append(number)

    def faces_of_edge(self, edge: Edge) -> list[int]:
        return self.of_edge[unordered(edge)]

    def is_boundary(self, edge: Edge) -> bool:
        return len(self.faces_of_edge(edge)) == 1

    def boundary(self) -> list[Edge]:
        return [edge for edge in self.edges if self.is_boundary(edge)]

    def used_points(self) -> list[int]:
        return [point for point, faces in self.of_point.items() if faces]

    def points_at_boundary(self) -> set[int]:
        return {end for edge in self.boundary() for end in edge}


# What is wrong with a mesh


def successor(mesh: Faces, vertex: int, face: int, left: set[int]) -> int | None:
    """The first of the faces that are left which leads back to a vertex from a corner that follows it in `face`."""
    followers = [after for before, after in sides(mesh.faces[face]) if before == vertex]
    return min((other for after in followers for other in mesh.of_side[after, vertex] if other in left), default=None)


def walk_meets_all(mesh: Faces, vertex: int, start: int) -> bool:
    """Whether a walk about a vertex from this face, from successor to successor, meets all faces there."""
    left, face = set(mesh.of_point[vertex]), start
    while face is not None:
        left.remove(face)
        face = successor(mesh, vertex, face, left)
    return not left


def is_led_to(mesh: Faces, vertex: int, face: int) -> bool:
    """Whether a face is the successor of one about a vertex."""
    return any(mesh.of_side[vertex, before] for before, after in sides(mesh.faces[face]) if after == vertex)


def has_one_fan(mesh: Faces, vertex: int) -> bool:
    """Whether no face is at a vertex, or one walk about it meets all that are. Where a face begins an open fan it is
    tried first, which saves time and changes nothing."""
    starts = sorted(mesh.of_point[vertex], key=lambda face: is_led_to(mesh, vertex, face))
    return not starts or any(walk_meets_all(mesh, vertex, start) for start in starts)


def face_faults(faces: list[Face]) -> Iterator[str]:
    for number, face in enumerate(faces):
        if len(face) < 3:
            yield f"face {number} has fewer than three corners"
    for number, face in enumerate(faces):
        if len(set(face)) < len(face):
            yield f"face {number} repeats a vertex"


def edge_faults(mesh: Faces) -> Iterator[str]:
    for a, b in mesh.edges:
        if mesh.edge_uses[unordered((a, b))] >= 3:
            yield f"edge {a} {b} has more than two faces"
    for a, b in mesh.edges:
        if mesh.times_used[a, b] >= 2 or mesh.times_used[b, a] >= 2:
            yield f"edge {a} {b} is used twice in one direction"


def vertex_faults(points: int, mesh: Faces) -> Iterator[str]:
    for vertex in range(points):
        if not has_one_fan(mesh, vertex):
            yield f"vertex {vertex} joins more than one fan"


def mesh_faults(points: int, mesh: Faces) -> Iterator[str]:
    """What is wrong with a mesh, kind by kind, and within a kind by face, by edge or by vertex."""
    yield from face_faults(mesh.faces)
    yield from edge_faults(mesh)
    yield from vertex_faults(points, mesh)


def count_faults(points: int, mesh: Faces) -> Iterator[str]:
    """What there is too much of in a mesh, in the order in which it is named."""
    if points > GREATEST_COUNT:
        yield f"too many points: {points}"
    if len(mesh.faces) > GREATEST_COUNT:
        yield f"too many faces: {len(mesh.faces)}"
    for number, face in enumerate(mesh.faces):
        if len(face) > GREATEST_SIZE:
            yield f"face {number} has {len(face)} corners"
    for vertex in range(points):
        if len(mesh.edges_of_point[vertex]) > GREATEST_SIZE:
            yield f"vertex {vertex} has {len(mesh.edges_of_point[vertex])} edges"


def check(points: int, mesh: Faces) -> None:
    """Refuses a mesh by the first that is wrong with it."""
    for status, faults in ((BAD_MESH, mesh_faults(points, mesh)), (TOO_LARGE, count_faults(points, mesh))):
        for fault in faults:
            raise Refusal(status, f"far: {fault}")


# Levels


@dataclass
class Level:
    """The number of points, the faces with what meets, the numbers of the faces that are holes, and the sharpness of
    the edges that are sharp, by `unordered`, and of the points that are."""

    points: int
    mesh: Faces
    holes: set[int]
    sharpness: dict[Edge, Sharpness]
    vertex_sharpness: dict[int, Sharpness]
    method: bytes

    def edge_sharpness(self, edge: Edge) -> Sharpness:
        return self.sharpness.get(unordered(edge), 0)


def sharpness_of(value: Sharpness) -> Sharpness:
    """A sharpness is a fraction below 10, or infinite."""
    return value if value < LEAST_INFINITE else inf


def base_sharpness(obj: Mesh, mesh: Faces) -> dict[Edge, Sharpness]:
    """Of the tags that name an edge, in either direction, the last counts; boundary edges are infinitely sharp."""
    tagged = {unordered(pair): sharpness_of(value) for pair, value in obj.creases}
    sharpness = {unordered(edge): tagged.get(unordered(edge), 0) for edge in mesh.edges}
    sharpness.update((unordered(edge), inf) for edge in mesh.edges if mesh.is_boundary(edge))
    return {edge: value for edge, value in sharpness.items() if value > 0}


def base_vertex_sharpness(obj: Mesh, mesh: Faces) -> dict[int, Sharpness]:
    """Of the tags that name a point the last counts; where the mode says so, the points of one face are infinitely
    sharp."""
    sharpness = {vertex: sharpness_of(value) for vertex, value in obj.corner_tags}
    if obj.mode == EDGE_AND_CORNER:
        sharpness.update((point, inf) for point in mesh.used_points() if len(mesh.of_point[point]) == 1)
    return {vertex: value for vertex, value in sharpness.items() if value > 0}


def base_holes(obj: Mesh, mesh: Faces) -> set[int]:
    """The faces that a tag names and, where the mode hides them, those with a point at the boundary."""
    at_boundary = mesh.points_at_boundary()
    hidden = [number for number, face in enumerate(mesh.faces) if obj.mode == HIDDEN and at_boundary & set(face)]
    return set(obj.holes) | set(hidden)


def base_level(obj: Mesh, mesh: Faces) -> Level:
    holes, sharpness = base_holes(obj, mesh), base_sharpness(obj, mesh)
    return Level(len(obj.points), mesh, holes, sharpness, base_vertex_sharpness(obj, mesh), obj.method)


# The next level


def child_faces(level: Level) -> list[Face]:
    """The faces of the next level, by face and then by corner: from the corner to the point of the edge after it, to
    the face point, and to the point of the edge before it. Face points follow the points, and edge points come last."""
    first_edge_point = level.points + len(level.mesh.faces)
    place = {unordered(edge): first_edge_point + number for number, edge in enumerate(level.mesh.edges)}
    return [
        (corner, place[unordered((corner, after))], level.points + number, place[unordered((before, corner))])
        for number, face in enumerate(level.mesh.faces)
        for before, corner, after in zip(face[-1:] + face[:-1], face, face[1:] + face[:1])
    ]


def child_holes(level: Level) -> set[int]:
    """The faces of the next level whose parents are holes."""
    parents = [number for number, face in enumerate(level.mesh.faces) for _ in face]
    return {child for child, parent in enumerate(parents) if parent in level.holes}


def semi_sharp_at(level: Level) -> dict[int, list[Fraction]]:
    """The values of the semi-sharp edges at each point that has some."""
    values = defaultdict(list)
    for edge, value in level.sharpness.items():
        if value < inf:
            for end in edge:
                values[end].append(value)
    return values


def is_too_fine(denominator: int) -> bool:
    """Whether a denominator is too great for a sharpness or a weight."""
    return denominator > GREATEST_DENOMINATOR


def common_denominator(values: Iterable[Fraction]) -> int:
    return lcm(*(value.denominator for value in values))


def has_fine_halves(values: list[Fraction]) -> bool:
    """Whether the chaikin halves of the semi-sharp edges at a point are over too great a denominator."""
    return len(values) >= 2 and is_too_fine(4 * (len(values) - 1) * common_denominator(values))


def uniform_child(value: Sharpness) -> Sharpness:
    return value if value == inf else max(value - 1, 0)


def half_sharpness(method: bytes, value: Sharpness, values: list[Fraction]) -> Sharpness:
    """The sharpness of the half of an edge at a point, where `values` are those of all semi-sharp edges there."""
    if method == b"chaikin" and 0 < value < inf and len(values) >= 2:
        value = value * 3 / 4 + (sum(values) - value) / (4 * (len(values) - 1))
    return sharpness_of(uniform_child(value))


def child_sharpness(level: Level) -> dict[Edge, Sharpness]:
    """The sharpness of the halves that are sharp; the edges inside the faces are smooth. An edge point has a greater
    number than the ends of its edge, so that the key of a half is in order."""
    first_edge_point = level.points + len(level.mesh.faces)
    values, halves = semi_sharp_at(level), {}
    for number, edge in enumerate(level.mesh.edges):
        value = level.edge_sharpness(edge)
        for end in edge if value > 0 else ():
            halves[end, first_edge_point + number] = half_sharpness(level.method, value, values[end])
    return {half: value for half, value in halves.items() if value > 0}


def child_vertex_sharpness(level: Level) -> dict[int, Sharpness]:
    """The sharpness of the points that stay sharp; face points and edge points are smooth."""
    return {vertex: value - 1 for vertex, value in level.vertex_sharpness.items() if value > 1}


def overflow(track: str, number: int, kind: str) -> Refusal:
    """The Refusal of the level of a track with this number for what passes its bound."""
    return Refusal(OVERFLOW, f"far: {track} level {number}: {kind} overflow")


def next_level(level: Level) -> Level:
    """The next level, whatever the denominators of its sharpnesses are."""
    points = level.points + len(level.mesh.faces) + len(level.mesh.edges)
    faces, holes, sharpness = Faces(child_faces(level)), child_holes(level), child_sharpness(level)
    return Level(points, faces, holes, sharpness, child_vertex_sharpness(level), level.method)


def child_level(level: Level, track: str, number: int) -> Level:
    """The next level, which has this number, or the Refusal of a denominator that is too great for it."""
    if level.method == b"chaikin" and any(map(has_fine_halves, semi_sharp_at(level).values())):
        raise overflow(track, number, "chaikin")
    return next_level(level)


# Texts


def check_depth(faces: list[Face], depth: int) -> None:
    """Refuses a depth by the first level after level 0 that has too many faces."""
    count = sum(map(len, faces))
    for number in range(1, depth + 1):
        if count > GREATEST_LEVEL:
            raise Refusal(TOO_LARGE, f"far: level {number} has {count} faces")
        count *= 4


def sharp_edges(level: Level) -> list[Edge]:
    """The edges of two faces that are sharp, in their order."""
    mesh = level.mesh
    return [edge for edge in mesh.edges if level.edge_sharpness(edge) > 0 and not mesh.is_boundary(edge)]


def extraordinary(level: Level) -> list[int]:
    """The points inside the mesh that have faces and another number of edges than four."""
    mesh, at_boundary = level.mesh, level.mesh.points_at_boundary()
    return [point for point in mesh.used_points() if point not in at_boundary and len(mesh.edges_of_point[point]) != 4]


def level_line(number: int, level: Level) -> str:
    mesh = level.mesh
    faces, edges, used = len(mesh.faces), len(mesh.edges), len(mesh.used_points())
    return (
        f"level {number} points {level.points} edges {edges} faces {faces} euler {used + faces - edges}"
        f" boundary {len(mesh.boundary())} holes {len(level.holes)} sharp {len(sharp_edges(level))}"
        f" extraordinary {len(extraordinary(level))}\n"
    )


def accepted(obj: Mesh, depth: int) -> Level:
    """Level 0 of a mesh that was read, or the first Refusal of the mesh, of its counts or of those of its levels."""
    mesh = Faces(obj.faces)
    check(len(obj.points), mesh)
    check_depth(obj.faces, depth)
    return base_level(obj, mesh)


def levels_text(obj: Mesh, depth: int) -> str:
    """The text of a mesh that was read, or its Refusal."""
    level = accepted(obj, depth)
    lines = [level_line(0, level)]
    for number in range(1, depth + 1):
        level = child_level(level, POSITIONS, number)
        lines.append(level_line(number, level))
    return "".join(lines)
