"""The colours of faces: flat, by one normal, or smooth, by the normals of their points."""

from __future__ import annotations

from math import fsum
from typing import Iterator, NamedTuple, Sequence

from picture_mesh import Edge, Face, Mesh, rough_edges
from picture_view import Place, Seen, Side, Vector, dot, length_of, normal_of
from reference.level import Faces, unordered
from reference.texture import fans_of

Colour = tuple[int, int, int]
Colours = tuple[Colour, Colour, Colour]  # in the shade, in the light, and turned straight to it

LIGHT = (-0.35, 0.62, 0.70)  # to the right, up and towards the eye
FRONT: Colours = ((92, 116, 150), (178, 205, 232), (250, 252, 254))
BACK: Colours = ((140, 122, 96), (222, 205, 176), (252, 249, 243))
# The cosines between the normal and the light at which the three colours are reached.
COSINES = (-0.35, 0.65, 1.0)
# Smooth shading breaks at an edge of this sharpness, or where the cosine between two normals is less than this.
LEAST_SHARPNESS, LEAST_COSINE = 1.0, 0.6
# A face whose corners differ by less is flat, and one that no even gradient comes so near is cut into triangles.
EVEN, BENT = 0.01, 0.012


def hexadecimal(colour: Sequence[float]) -> str:
    return "#" + "".join(f"{round(part):02x}" for part in colour)


def light_on(normal: Vector) -> float:
    """The cosine between a normal and the light."""
    return dot(normal, LIGHT) / ((length_of(normal) or 1.0) * length_of(LIGHT))


def colour_at(cosine: float, colours: Colours) -> str:
    """The colour of a surface whose normal has this cosine with the light."""
    shade, middle, straight = COSINES
    first = 0 if cosine < middle else 1
    part = (cosine - shade) / (middle - shade) if first == 0 else (cosine - middle) / (straight - middle)
    part = min(1.0, max(0.0, part))
    return hexadecimal([a + (b - a) * part for a, b in zip(colours[first], colours[first + 1])])


def colour_of(side: Side, colours: Colours | None = None) -> str:
    return colour_at(light_on(side.normal), colours or (FRONT if side.is_front else BACK))


# Normals of corners


def unit(vector: Vector) -> Vector:
    length = length_of(vector) or 1.0
    return [value / length for value in vector]


def breaks(mesh: Mesh, faces: Faces, normals: list[Vector]) -> list[Edge]:
    """The edges at which smooth shading breaks, each as the faces first name it."""
    sharp, units = rough_edges(mesh, LEAST_SHARPNESS), [unit(normal) for normal in normals]
    pairs = {edge: faces.faces_of_edge(edge) for edge in faces.edges}
    turns = {edge for edge, pair in pairs.items() if dot(units[pair[0]], units[pair[-1]]) < LEAST_COSINE}
    return [edge for edge in faces.edges if edge in turns or unordered(edge) in sharp]


def corner_normals(mesh: Mesh, points: list[Vector]) -> list[list[Vector]]:
    """Of each corner of each face the sum of the normals of the faces about its point, up to the edges that break."""
    normals = [normal_of([points[vertex] for vertex in face]) for face in mesh.faces]
    faces = Faces(mesh.faces)
    broken, sums = set(breaks(mesh, faces, normals)), {}
    for vertex in faces.used_points():
        fans = fans_of(faces, broken, vertex)
        for face, fan in fans.items():
            together = [normals[other] for other, name in fans.items() if name == fan]
            sums[face, vertex] = [fsum(axis) for axis in zip(*together)]
    return [[sums[number, vertex] for vertex in face] for number, face in enumerate(mesh.faces)]


# Gradients


class Facet(NamedTuple):
    """A polygon on the page with the cosine between normal and light at each of its corners."""

    places: list[Place]
    cosines: list[float]


def even_change(facet: Facet) -> tuple[float, float]:
    """How much the cosine grows for a pixel to the right and for one down: the plane of least squares."""
    count = len(facet.places)
    middle = [fsum(axis) / count for axis in zip(*facet.places)]
    mean = fsum(facet.cosines) / count
    steps = [(x - middle[0], y - middle[1], cosine - mean) for (x, y), cosine in zip(facet.places, facet.cosines)]
    xx, xy, yy = (fsum(step[a] * step[b] for step in steps) for a, b in ((0, 0), (0, 1), (1, 1)))
    xc, yc = (fsum(step[a] * step[2] for step in steps) for a in (0, 1))
    determinant = xx * yy - xy * xy
    if determinant < 1e-3 * (xx + yy + 1e-9) ** 2:
        return 0.0, 0.0  # seen from its edge
    return (xc * yy - yc * xy) / determinant, (yc * xx - xc * xy) / determinant


def miss_of(facet: Facet) -> float:
    """How far the cosines of a polygon are from an even gradient."""
    right, down = even_change(facet)
    rests = [cosine - right * x - down * y for (x, y), cosine in zip(facet.places, facet.cosines)]
    return (max(rests) - min(rests)) / 2


def evenly_shaded(facet: Facet) -> Iterator[Facet]:
    """A polygon where an even gradient shades it well, and else triangles about its middle."""
    if miss_of(facet) <= BENT or len(facet.places) < 4:
        yield facet
        return
    count = len(facet.places)
    middle = tuple(fsum(axis) / count for axis in zip(*facet.places))
    mean = fsum(facet.cosines) / count
    for here in range(count):
        there = (here + 1) % count
        places = [facet.places[here], facet.places[there], middle]
        yield Facet(places, [facet.cosines[here], facet.cosines[there], mean])


class Paints:
    """The fills of a picture, of which gradients are named. A gradient goes from the shade to the gleam."""

    def __init__(self) -> None:
        self.lines: list[str] = []
        self.ramps: dict[Colours, str] = {}

    def ramp(self, colours: Colours) -> str:
        """The name of the gradient from which those of facets take their colours."""
        if colours not in self.ramps:
            self.ramps[colours] = f"r{len(self.ramps)}"
            low, middle, high = (hexadecimal(colour) for colour in colours)
            at = (COSINES[1] - COSINES[0]) / (COSINES[2] - COSINES[0])
            self.lines.append(
                f'<linearGradient id="{self.ramps[colours]}" gradientUnits="userSpaceOnUse"><stop stop-color="{low}"/>'
                f'<stop offset="{at:.3f}" stop-color="{middle}"/><stop offset="1" stop-color="{high}"/></linearGradient>'
            )
        return self.ramps[colours]

    def fill_of(self, facet: Facet, colours: Colours) -> str:
        """The fill of a facet: a colour where its light hardly changes, and else a gradient of its own."""
        right, down = even_change(facet)
        spread = max(right * x + down * y for x, y in facet.places) - min(right * x + down * y for x, y in facet.places)
        count = len(facet.places)
        mean = fsum(facet.cosines) / count
        if spread < EVEN:
            return colour_at(mean, colours)
        x, y = (fsum(axis) / count for axis in zip(*facet.places))
        square = right * right + down * down
        ends = [(x + right * step / square, y + down * step / square) for step in (COSINES[0] - mean, COSINES[2] - mean)]
        (x1, y1), (x2, y2) = ends
        ramp, name = self.ramp(colours), f"g{len(self.lines)}"
        self.lines.append(f'<linearGradient id="{name}" href="#{ramp}" x1="{x1:.1f}" y1="{y1:.1f}" x2="{x2:.1f}" y2="{y2:.1f}"/>')
        return f"url(#{name})"


def facets_of(face: Face, side: Side, normals: list[Vector], seen: Seen) -> Iterator[Facet]:
    """The parts of the side of a face that are shaded evenly."""
    cosines = [light_on([side.sign * value for value in normal]) for normal in normals]
    yield from evenly_shaded(Facet([seen.places[vertex] for vertex in face], cosines))
