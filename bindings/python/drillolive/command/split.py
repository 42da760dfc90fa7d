"""Makes a manifold of a mesh that is none: fans of faces get points of their own."""

from __future__ import annotations

from collections import Counter
from collections.abc import Callable, Sequence
from dataclasses import dataclass

from ..errors import Fault, error_of
from ..fans import Fans, fans_of, following_corners
from .faults import MANY_FACES, ONE_DIRECTION, Edge, edge_of, faces_of, is_of

# Lists the faults of a mesh: the count of its points, and the sizes and the corners of its faces.
Judge = Callable[[int, Sequence[int], Sequence[int]], "list[Fault]"]


@dataclass(frozen=True)
class Split:
    """A manifold that was made of a mesh. Faces and points are counted from 0."""

    left_out: list[int]  # the faces that repeat a point or have fewer than three corners
    sizes: list[int]  # of the faces that are kept, in their order
    corners: list[int]
    origins: list[int]  # for each point that is added behind those of the mesh, the point whose place it has


def split(count: int, sizes: Sequence[int], corners: Sequence[int], judge: Judge) -> Split:
    """Parts fans at points, and faces at edges, until the judge finds no fault. A manifold stays as it is.

    The first fan at a point keeps the number of the point. Raises the error of a fault that no parting removes, such as
    a count that passes its limit.
    """
    faces = list(faces_of(sizes, corners))
    left_out = [number for number, face in enumerate(faces) if len(face) < 3 or len(set(face)) < len(face)]
    gone = set(left_out)
    kept = [face for number, face in enumerate(faces) if number not in gone]
    kept_sizes, kept_corners = [len(face) for face in kept], [point for face in kept for point in face]
    fans = fans_of(kept_sizes, kept_corners)
    stitch(fans, kept_sizes, kept_corners)
    while True:
        points, origins = own_points(count, kept_corners, fans.firsts())
        edges = faulty_edges(judge(count + len(origins), kept_sizes, points))
        if not edges:
            return Split(left_out, kept_sizes, points, origins)
        parted = corners_to_part(kept_sizes, points, edges)
        fans = fans_of(kept_sizes, [-1 - corner if corner in parted else point for corner, point in enumerate(points)])


def stitch(fans: Fans, sizes: Sequence[int], corners: Sequence[int]) -> None:
    """Joins faces along edges of three faces or more, where they are not joined around both ends of the edge.

    Of such faces those in one direction and those in the other are joined pair by pair, in their order. So a face stays
    in its surface where another one doubles it.
    """
    following = following_corners(sizes)
    for sides in crowded_edges(corners, following):
        # The fans of a face at both ends of the edge, where only faces that are joined there have the same two.
        ends = {side: frozenset((fans.first(side), fans.first(following[side]))) for side in sides}
        counts = Counter(ends.values())
        alone = [side for side in sides if counts[ends[side]] == 1]
        forward = [side for side in alone if corners[side] < corners[following[side]]]
        backward = [side for side in alone if corners[side] > corners[following[side]]]
        for side, opposite in zip(forward, backward):
            fans.join_sides(side, opposite, following)


def crowded_edges(corners: Sequence[int], following: Sequence[int]) -> list[list[int]]:
    """Returns the edges of three faces or more: the corners where the sides of these faces begin."""
    edges: dict[Edge, list[int]] = {}
    for corner, follower in enumerate(following):
        edges.setdefault(edge_of(corners[corner], corners[follower]), []).append(corner)
    return [sides for sides in edges.values() if len(sides) > 2]


def own_points(count: int, corners: Sequence[int], fans: Sequence[int]) -> tuple[list[int], list[int]]:
    """Gives each fan a point of its own, and the first fan at a point that point itself.

    `corners` has the point of each corner, of `count` points. Returns the new point of each corner, and the points
    whose places the added ones have.
    """
    keepers: dict[int, int] = {}  # for each point the fan that keeps it
    numbers: dict[int, int] = {}  # for each fan its point
    origins: list[int] = []
    for point, fan in zip(corners, fans):
        if fan in numbers:
            continue
        if keepers.setdefault(point, fan) == fan:
            numbers[fan] = point
        else:
            numbers[fan] = count + len(origins)
            origins.append(point)
    return [numbers[fan] for fan in fans], origins


def faulty_edges(faults: Sequence[Fault]) -> set[Edge]:
    """Returns the edges that have faults. Raises the error of a fault that is none of an edge."""
    for fault in faults:
        if not is_of(fault, MANY_FACES, ONE_DIRECTION):
            raise error_of(fault)
    return {edge_of(fault.first, fault.second) for fault in faults}


def corners_to_part(sizes: Sequence[int], corners: Sequence[int], edges: set[Edge]) -> set[int]:
    """Returns the corners at both ends of these edges, of all faces but the first and the first that fits to it."""
    following = following_corners(sizes)
    kept: dict[Edge, list[int]] = {edge: [] for edge in edges}  # where the sides begin that stay at an edge
    parted: set[int] = set()
    for corner, follower in enumerate(following):
        stay = kept.get(edge_of(corners[corner], corners[follower]))
        if stay is None:
            continue
        if not stay or len(stay) == 1 and corners[corner] != corners[stay[0]]:
            stay.append(corner)
        else:
            parted |= {corner, follower}
    return parted
