"""How the eye sees points and faces: frames, normals and sides. The z axis points up."""

from __future__ import annotations

from math import cos, fsum, radians, sin, sqrt
from typing import Iterator, NamedTuple, Sequence

from picture_mesh import Face, Mesh, Point, is_closed
from reference.level import sides

Place = tuple[float, float]
Vector = Sequence[float]
FAR_AWAY = 1e6  # the eye's distance where there is no perspective


class View(NamedTuple):
    """From where the eye looks, and how large it draws."""

    size: float  # pixels of the greater extent of a drawing
    turn: float  # degrees round the z axis
    tilt: float  # degrees that the eye looks down
    distance: float  # of the eye, in radii; 0: no perspective


def dot(a: Vector, b: Vector) -> float:
    return fsum(x * y for x, y in zip(a, b))


def length_of(vector: Vector) -> float:
    return sqrt(dot(vector, vector))


def between(a: Vector, b: Vector) -> list[float]:
    """The vector from b to a."""
    return [x - y for x, y in zip(a, b)]


def turned(point: Vector, turn: float, tilt: float) -> Vector:
    """A point as the eye has it: to the right, up, and towards the eye. Sines are rounded, since their last digits
    differ from machine to machine."""
    (along, across), (level, steep) = [(round(cos(angle), 12), round(sin(angle), 12)) for angle in (turn, tilt)]
    x, y, z = point
    right, away = x * along + y * across, y * along - x * across
    return right, z * level + away * steep, z * steep - away * level


class Frame(NamedTuple):
    """How the points of space come to a drawing, whose middle is at (0, 0)."""

    middle: Point
    radius: float  # the ball of this radius about the middle comes to the ball of radius 1
    view: View
    scale: float  # pixels for a radius

    def to_eye(self, point: Point) -> Vector:
        moved = [float(value - middle) / self.radius for value, middle in zip(point, self.middle)]
        return turned(moved, radians(self.view.turn), radians(self.view.tilt))

    def to_page(self, seen: Vector) -> Place:
        """Where the eye sees a point, in pixels to the right and down."""
        right, up, near = seen
        nearer = self.view.distance / (self.view.distance - near) if self.view.distance else 1.0
        return self.scale * nearer * right, -self.scale * nearer * up


def frame_of(points: list[Point], view: View) -> Frame:
    """The frame in which the greater extent of these points has the size of the view."""
    points = points or [(0, 0, 0)]
    middle = [(min(axis) + max(axis)) / 2 for axis in zip(*points)]
    radius = max(length_of([float(value) for value in between(point, middle)]) for point in points) or 1.0
    frame = Frame(middle, radius, view, 1.0)
    extents = [max(axis) - min(axis) for axis in zip(*(frame.to_page(frame.to_eye(point)) for point in points))]
    return frame._replace(scale=view.size / (max(extents) or 1.0))


class Seen(NamedTuple):
    """What the eye sees of points: each as the eye has it, and its place in the drawing."""

    points: list[Vector]
    places: list[Place]
    eye: Vector

    def places_of(self, faces: list[Face]) -> list[Place]:
        """The places of the points of these faces; where there are no faces, of all points."""
        used = {vertex for face in faces for vertex in face} or range(len(self.places))
        return [self.places[vertex] for vertex in sorted(used)]

    def away(self, number: int) -> float:
        """How far a point is from the eye."""
        return length_of(between(self.eye, self.points[number]))


def seen_from(frame: Frame, points: list[Point]) -> Seen:
    at_eye = [frame.to_eye(point) for point in points]
    return Seen(at_eye, [frame.to_page(point) for point in at_eye], (0.0, 0.0, frame.view.distance or FAR_AWAY))


def normal_of(corners: Sequence[Vector]) -> list[float]:
    """A vector along the normal of a polygon that need not be flat, as long as twice its area."""
    total = [0.0, 0.0, 0.0]
    for a, b in sides(list(corners)):
        for axis in range(3):
            u, v = (axis + 1) % 3, (axis + 2) % 3
            total[axis] += (a[u] - b[u]) * (a[v] + b[v])
    return total


def volume_sign(points: list[Vector], faces: list[Face]) -> int:
    """1 where the faces of a closed mesh look outwards, and -1 where they look inwards."""
    polygons = [[points[vertex] for vertex in face] for face in faces]
    return -1 if fsum(dot(corners[0], normal_of(corners)) for corners in polygons) < 0 else 1


class Side(NamedTuple):
    """The side of a face that the eye sees."""

    away: float  # how far its middle is from the eye
    number: int  # of the face
    sign: int  # -1 where its normal is the face's normal turned over
    normal: list[float]  # towards the eye
    is_front: bool


def seen_sides(faces: list[Face], seen: Seen) -> Iterator[Side]:
    """Of each face the side that the eye sees. A closed mesh has its front outside."""
    outwards = volume_sign(seen.points, faces) if is_closed(faces) else 1
    for number, face in enumerate(faces):
        corners = [seen.points[vertex] for vertex in face]
        middle = [fsum(axis) / len(corners) for axis in zip(*corners)]
        towards, normal = between(seen.eye, middle), normal_of(corners)
        sign = 1 if dot(normal, towards) > 0 else -1
        yield Side(length_of(towards), number, sign, [sign * value for value in normal], sign == outwards)


def shown_sides(mesh: Mesh, seen: Seen) -> list[Side]:
    """The sides that are drawn, the farthest first. Of a closed mesh without holes these are the fronts."""
    every = sorted(seen_sides(mesh.faces, seen), key=lambda side: side.away, reverse=True)
    return [side for side in every if side.is_front] if is_closed(mesh.faces) and not mesh.holes else every
