"""A plain, slow reference of texture: the seams of a mesh, its channel points, and the mesh that the seams cut.

It is written from the definitions of `subdiv_model` (Cut) and `far_model` (Answer), and shares nothing with the program.
`tests/reference/reference.py` refines texture through it.
"""

from __future__ import annotations

from math import inf

from reference.level import Faces, Level, unordered
from reference.mask import Channel
from reference.obj import Edge, Face, Mesh

TEXTURE = "texture"


# Seams


def numbers_of_corners(obj: Mesh) -> list[dict[int, int]]:
    """For each face the number of its texture value at each of its vertices."""
    return [dict(zip(*pair)) for pair in zip(obj.faces, obj.texture_corners)]


def is_seam(mesh: Faces, numbers: list[dict[int, int]], edge: Edge) -> bool:
    """Whether an edge has two faces whose numbers differ at either end."""
    at_faces = [numbers[face] for face in mesh.faces_of_edge(edge)]
    return any(here[end] != there[end] for here, there in zip(at_faces, at_faces[1:]) for end in edge)


def fans_of(mesh: Faces, seams: set[Edge], vertex: int) -> dict[int, int]:
    """For each face at a vertex the least of those that are joined with it, through edges there that are no seams."""
    least = {face: face for face in mesh.of_point[vertex]}
    joined = [mesh.faces_of_edge(edge) for edge in mesh.edges_of_point[vertex] if edge not in seams]
    for _ in range(len(least)):
        for faces in joined:
            least.update(dict.fromkeys(faces, min(least[face] for face in faces)))
    return least


# The cut mesh


def cut_faces(mesh: Faces, seams: set[Edge]) -> tuple[list[tuple[int, int]], list[Face]]:
    """The channel points, each a vertex and the least face of a fan there, by first appearance; and the faces over
    their numbers."""
    fans = {vertex: fans_of(mesh, seams, vertex) for vertex in mesh.used_points()}
    points = {}
    for number, face in enumerate(mesh.faces):
        for vertex in face:
            points.setdefault((vertex, fans[vertex][number]), len(points))
    faces = [tuple(points[vertex, fans[vertex][number]] for vertex in face) for number, face in enumerate(mesh.faces)]
    return list(points), faces


def kept_sharp(mode: bytes, cut: Faces) -> set[int]:
    """The channel points that a mode keeps sharp, whatever their vertices are."""
    if mode == b"corners":
        return {point for point in cut.used_points() if len(cut.of_point[point]) == 1}
    return cut.points_at_boundary() if mode == b"boundaries" else set()


def above_zero(sharpness: dict) -> dict:
    return {key: value for key, value in sharpness.items() if value > 0}


def cut_level(base: Level, mode: bytes, vertices: list[int], cut: Faces) -> Level:
    """Level 0 of the cut mesh, whose channel points have these vertices. Its boundary edges are infinitely sharp, and so
    are the points that the mode keeps sharp; all else is as sharp as it is in level 0 of the mesh."""
    sharpness = {unordered((a, b)): base.edge_sharpness((vertices[a], vertices[b])) for a, b in cut.edges}
    sharpness.update((unordered(edge), inf) for edge in cut.boundary())
    at_points = {point: base.vertex_sharpness.get(vertex, 0) for point, vertex in enumerate(vertices)}
    at_points.update((point, inf) for point in kept_sharp(mode, cut))
    return Level(len(vertices), cut, base.holes, above_zero(sharpness), above_zero(at_points), base.method)


def texture_of(obj: Mesh, base: Level, mode: bytes) -> Channel:
    """The channel of the texture of a mesh that was read, from level 0 of the mesh, refined in this way."""
    mesh, numbers = base.mesh, numbers_of_corners(obj)
    points, faces = cut_faces(mesh, {edge for edge in mesh.edges if is_seam(mesh, numbers, edge)})
    level = cut_level(base, mode, [vertex for vertex, _ in points], Faces(faces))
    values = [obj.texture[numbers[face][vertex]] for vertex, face in points]
    return Channel(TEXTURE, level, values, obj.texture_common, mode == b"linear")
