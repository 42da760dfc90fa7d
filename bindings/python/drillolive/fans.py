"""Fans: the corners of faces that hang together at a point, across edges that join two faces."""

from __future__ import annotations

from collections.abc import Collection, Sequence

MANY = -1


def following_corners(sizes: Sequence[int]) -> list[int]:
    """Returns for each corner the next corner of its face. Corners are counted from 0, one face behind the other."""
    following = list(range(1, sum(sizes) + 1))
    first = 0
    for size in sizes:
        if size:
            following[first + size - 1] = first
        first += size
    return following


def single_sides(corners: Sequence[int], following: Sequence[int]) -> dict[tuple[int, int], int]:
    """Returns for each side of a face, by its two points, the corner where it begins. MANY: several faces have it."""
    sides: dict[tuple[int, int], int] = {}
    for corner, follower in enumerate(following):
        side = corners[corner], corners[follower]
        sides[side] = MANY if side in sides else corner
    return sides


class Fans:
    """Corners that are joined to fans."""

    def __init__(self, count: int) -> None:
        self._parents = list(range(count))

    def first(self, corner: int) -> int:
        """Returns the first corner of the fan of a corner."""
        parents = self._parents
        while parents[corner] != corner:
            parents[corner] = parents[parents[corner]]
            corner = parents[corner]
        return corner

    def firsts(self) -> list[int]:
        """Returns for each corner the first corner of its fan."""
        return [self.first(corner) for corner in range(len(self._parents))]

    def join(self, one: int, other: int) -> None:
        """Joins the fans of two corners."""
        one, other = self.first(one), self.first(other)
        self._parents[max(one, other)] = min(one, other)

    def join_sides(self, side: int, opposite: int, following: Sequence[int]) -> None:
        """Joins two faces along an edge: the sides that begin at these corners go in opposite directions."""
        self.join(side, following[opposite])
        self.join(following[side], opposite)


def fans_of(sizes: Sequence[int], corners: Sequence[int]) -> Fans:
    """Returns the fans of a mesh. Two faces are joined along an edge that they alone have, in opposite directions."""
    following = following_corners(sizes)
    sides = single_sides(corners, following)
    fans = Fans(len(corners))
    for (start, end), side in sides.items():
        opposite = sides.get((end, start), MANY) if start < end else MANY
        if side != MANY and opposite != MANY:
            fans.join_sides(side, opposite, following)
    return fans


def points_of_several_fans(corners: Sequence[int], fans: Sequence[int], left_out: Collection[int]) -> list[int]:
    """Returns the points that join more than one fan, without those that are left out.

    `corners` has the point of each corner, and `fans` the first corner of its fan.
    """
    firsts: dict[int, int] = {}
    several = {point for point, fan in zip(corners, fans) if firsts.setdefault(point, fan) != fan}
    return sorted(several.difference(left_out))
