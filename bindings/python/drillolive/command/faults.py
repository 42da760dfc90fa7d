"""Tells all faults of a mesh in the lines and numbers of its file."""

from __future__ import annotations

from collections.abc import Iterable, Iterator, Sequence
from itertools import islice

from .. import Mesh
from ..errors import Fault
from ..fans import fans_of
from ..mesh import FEW_CORNERS, MANY_FACES, MANY_FANS, ONE_DIRECTION, REPEATED_POINT, fan_faults
from .explain import cause_in_file
from .obj_file import ObjFile

ORIGIN = (0.0, 0.0, 0.0)
LISTED = 12  # how many numbers of a long list are named

Edge = tuple[int, int]


def listed(items: Iterable[object], one: str, many: str, most: int = LISTED) -> str:
    """Returns items with their noun, such as `line 3` or `lines 3, 4 and 9`. Those past the most are counted."""
    words = [str(item) for item in items]
    if len(words) == 1:
        return f"{one} {words[0]}"
    if len(words) > most:
        words[most - 1 :] = [f"{len(words) - most + 1} more"]
    return f"{many} {', '.join(words[:-1])} and {words[-1]}"


def lines_of(numbers: Iterable[int], most: int = LISTED) -> str:
    """Returns lines in words, each once."""
    return listed(dict.fromkeys(numbers), "line", "lines", most)


def faces_of(sizes: Iterable[int], corners: Iterable[int]) -> Iterator[tuple[int, ...]]:
    """Gives the points of each face."""
    rest = iter(corners)
    return (tuple(islice(rest, size)) for size in sizes)


def edge_of(one: int, other: int) -> Edge:
    """Returns an edge by its ends, the lesser first."""
    return (one, other) if one < other else (other, one)


def judge_faces(count: int, sizes: Sequence[int], corners: Sequence[int]) -> list[Fault]:
    """Returns the faults of faces over so many points, wherever these are: those of points only if there are no others."""
    faults = Mesh([ORIGIN] * count, (sizes, corners)).check()
    return [fault for fault in faults if not is_of(fault, MANY_FANS)] or faults


def is_of(fault: Fault, *kinds: int) -> bool:
    """Tells whether a fault is one of a mesh that is no manifold, of one of these kinds."""
    return fault.status == "mesh" and fault.kind in kinds


def sentences_of_faults(file: ObjFile) -> list[str]:
    """Returns a line for each fault of the mesh of a file: where, what is wrong, and what to do. None for a manifold.

    Faces that have faults are left out for the faults of edges and points. Raises ObjError where the library refuses
    a line.
    """
    faults = Mesh.from_obj(file.text).check()
    if not faults:
        return []
    faces = list(zip(faces_of(file.face_sizes, file.corners), file.face_lines))
    faulty = {fault.first for fault in faults if is_of(fault, FEW_CORNERS, REPEATED_POINT)}
    kept = [face for number, face in enumerate(faces) if number not in faulty]
    if faulty:
        sizes, corners = [len(face) for face, _ in kept], [point for face, _ in kept for point in face]
        others = [fault for fault in judge_faces(len(file.points), sizes, corners) if not is_of(fault, MANY_FANS)]
        faults = [fault for fault in faults if is_of(fault, FEW_CORNERS, REPEATED_POINT)] + others
    faults = without_consequences(faults)
    touched = {point for number in faulty for point in faces[number][0]}
    fans = fans_of(file.face_sizes, file.corners).firsts()
    if faulty:
        faults += fan_faults(file.corners, fans, touched.union(*ends_of_edges(faults)))
    edges = ends_of_edges(faults)
    points = {fault.first for fault in faults if is_of(fault, MANY_FANS)}
    at_edges, at_points = lines_at_edges(kept, edges), lines_of_fans(file, points, fans)
    return [f"{_cause(fault, file, at_edges, at_points)}. {fault.advice}" for fault in faults]


def without_consequences(faults: Sequence[Fault]) -> list[Fault]:
    """Returns the faults without those that follow from another one of the same face or edge.

    Of three faces at an edge two go in one direction. A face of two corners at one point repeats the point.
    """
    few = {fault.first for fault in faults if is_of(fault, FEW_CORNERS)}
    many = {edge_of(fault.first, fault.second) for fault in faults if is_of(fault, MANY_FACES)}
    return [
        fault
        for fault in faults
        if not (is_of(fault, REPEATED_POINT) and fault.first in few)
        and not (is_of(fault, ONE_DIRECTION) and edge_of(fault.first, fault.second) in many)
    ]


def ends_of_edges(faults: Iterable[Fault]) -> set[Edge]:
    """Returns the edges that have faults, the lesser end of each first."""
    return {edge_of(fault.first, fault.second) for fault in faults if is_of(fault, MANY_FACES, ONE_DIRECTION)}


def lines_at_edges(faces: Iterable[tuple[Sequence[int], int]], edges: set[Edge]) -> dict[Edge, list[int]]:
    """Returns for each of these edges the lines of the faces that have it. Each face is given with its line."""
    lines: dict[Edge, list[int]] = {edge: [] for edge in edges}
    for face, line in faces:
        for place, point in enumerate(face):
            edge = edge_of(face[place - 1], point)
            if edge in lines:
                lines[edge].append(line)
    return lines


def lines_of_fans(file: ObjFile, points: set[int], fans: Sequence[int]) -> dict[int, dict[int, list[int]]]:
    """Returns for each of these points its fans, each by its first corner, and the lines of the faces of each."""
    found: dict[int, dict[int, list[int]]] = {point: {} for point in points}
    corner = 0
    for size, line in zip(file.face_sizes, file.face_lines):
        for place in range(corner, corner + size):
            if file.corners[place] in found:
                found[file.corners[place]].setdefault(fans[place], []).append(line)
        corner += size
    return found


def _cause(
    fault: Fault, file: ObjFile, at_edges: dict[Edge, list[int]], at_points: dict[int, dict[int, list[int]]]
) -> str:
    """Returns where a fault is, and what is wrong."""
    if is_of(fault, MANY_FACES, ONE_DIRECTION):
        lines = at_edges[edge_of(fault.first, fault.second)]
        edge = f"from point {fault.first + 1} to point {fault.second + 1}"
        if fault.kind == MANY_FACES:
            return f"{lines_of(lines, len(lines))}: the edge {edge} has more than two faces"
        return f"{lines_of(lines)}: both faces go {edge}, so that one of them is flipped"
    if is_of(fault, MANY_FANS):
        fans = at_points[fault.first].values()
        where = f"line {file.point_lines[fault.first]}: point {fault.first + 1}"
        return f"{where} joins {len(fans)} fans of faces, which meet only there: {'; '.join(map(lines_of, fans))}"
    return cause_in_file(fault, file)
