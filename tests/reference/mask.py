"""A plain, slow reference of masks and refined values: the rules, the masks and their transitions, and one step.

It is written from the definitions of `subdiv_model` (Rule, Mask, Refined and Channel), with `fractions.Fraction` for
every weight and value, and shares nothing with the program. `tests/reference/reference.py` refines through it.
"""

from __future__ import annotations

from dataclasses import dataclass
from fractions import Fraction
from math import inf, lcm
from typing import Callable, Iterable, Sequence

from reference.level import POSITIONS, Level, child_level, common_denominator, half_sharpness, is_too_fine, overflow, uniform_child
from reference.obj import Edge, Face, Mesh, Sharpness
from reference.run import TOO_LARGE, Refusal

GREATEST_NUMBER = 2**126 - 1
MOST_ENTRIES = 2**27
# The rule of a vertex: smooth, which a dart is like; corner; or a crease, by the places of its two edges in the ring.
SMOOTH, CORNER = "smooth", "corner"


@dataclass
class Channel:
    """Values that are refined: their track, their level 0, the controls as whole numbers over a common denominator, and
    whether the scheme is linear."""

    track: str
    base: Level
    controls: list[tuple[int, ...]]
    common: int
    is_linear: bool = False

    def greatest(self) -> int:
        """The greatest amount of a control, or the common denominator where that is greater."""
        return max([self.common] + [abs(number) for control in self.controls for number in control])


@dataclass
class Mask:
    """Weights above 0 by their sources, over a denominator that is not reduced. A source has the number of a point of
    the next level: a point of the level, or the new point of a face."""

    weights: dict[int, int]
    denominator: int


@dataclass
class Point:
    """The value of a point, a coordinate for each axis; the denominator over which it is whole for all controls; and the
    controls that it depends on."""

    value: tuple[Fraction, ...]
    denominator: int
    controls: set[int]


def mask_of(terms: Iterable[tuple[int, int]], denominator: int) -> Mask:
    """The mask of some sources with their weights; those of one source are joined, and those of weight 0 left out."""
    weights = {}
    for source, weight in terms:
        weights[source] = weights.get(source, 0) + weight
    return Mask({source: weight for source, weight in weights.items() if weight > 0}, denominator)


def each(weight: int, sources: Iterable[int]) -> list[tuple[int, int]]:
    return [(source, weight) for source in sources]


# Rules


def rule(vertex: Sharpness, ring: list[Sharpness]) -> str | tuple[int, int]:
    """The rule of a vertex by its own sharpness and those of the edges at it."""
    sharp = [place for place, value in enumerate(ring) if value > 0]
    if vertex > 0 or not ring or len(sharp) > 2:
        return CORNER
    return tuple(sharp) if len(sharp) == 2 else SMOOTH


def ended(vertex: Sharpness, ring: list[Sharpness], ring_child: list[Sharpness]) -> list[Fraction]:
    """The values of a vertex and of the edges at it that are above 0 and are 0 in the next level."""
    pairs = [(vertex, uniform_child(vertex)), *zip(ring, ring_child)]
    return [value for value, after in pairs if value > 0 and after == 0]


# Masks


def face_mask(face: Face) -> Mask:
    return mask_of(each(1, face), len(face))


def edge_mask(channel: Channel, level: Level, edge: Edge) -> Mask:
    """The mask of the new point of an edge, where one of sharpness 0 is a blend that has nothing of the sharp mask. The
    linear scheme takes each edge as sharp."""
    sharpness = inf if channel.is_linear else level.edge_sharpness(edge)
    faces = level.mesh.faces_of_edge(edge)
    if sharpness >= 1:
        return mask_of(each(1, edge), 2)
    x, y = Fraction(sharpness).as_integer_ratio()
    return mask_of(each(y + x, edge) + each(y - x, [level.points + face for face in faces]), 4 * y)


def rule_mask(named: str | tuple[int, int], vertex: int, ends: list[int], faces: list[int]) -> Mask:
    """The mask of a vertex by its rule, from the other ends of its edges and its faces."""
    count = len(ends)
    if named == CORNER:
        return mask_of([(vertex, 1)], 1)
    if named == SMOOTH:
        return mask_of([(vertex, count * (count - 2)), *each(1, ends), *each(1, faces)], count * count)
    return mask_of([(vertex, 6), *each(1, [ends[place] for place in named])], 8)


def blend(weight: Fraction, parent: Mask, child: Mask) -> Mask:
    """So much of the one mask, and the rest of the other, over the least common multiple of their denominators."""
    multiple = lcm(parent.denominator, child.denominator)
    x, y = weight.as_integer_ratio()
    terms = [(source, x * (multiple // parent.denominator) * part) for source, part in parent.weights.items()]
    terms += [(source, (y - x) * (multiple // child.denominator) * part) for source, part in child.weights.items()]
    return mask_of(terms, y * multiple)


def transition(channel: Channel, level: Level, vertex: int) -> tuple[tuple, list[Fraction]]:
    """The rules of a vertex in the level and in the next, and the values that have ended there. The linear scheme takes
    each vertex as a corner."""
    sharpness = level.vertex_sharpness.get(vertex, 0)
    ring = [level.edge_sharpness(edge) for edge in level.mesh.edges_of_point[vertex]]
    semi_sharp = [value for value in ring if 0 < value < inf]
    ring_child = [half_sharpness(level.method, value, semi_sharp) for value in ring]
    rules = (CORNER, CORNER) if channel.is_linear else (rule(sharpness, ring), rule(uniform_child(sharpness), ring_child))
    return rules, ended(sharpness, ring, ring_child)


def has_fine_weight(channel: Channel, level: Level, vertex: int) -> bool:
    """Whether the weight between the two rules of a vertex is too fine."""
    rules, values = transition(channel, level, vertex)
    return rules[0] != rules[1] and is_too_fine(len(values) * common_denominator(values))


def vertex_mask(channel: Channel, level: Level, vertex: int) -> Mask:
    """The mask of a vertex for the next level."""
    ends = [a + b - vertex for a, b in level.mesh.edges_of_point[vertex]]
    faces = [level.points + face for face in level.mesh.of_point[vertex]]
    rules, values = transition(channel, level, vertex)
    parent, child = (rule_mask(named, vertex, ends, faces) for named in rules)
    if rules[0] == rules[1]:
        return parent
    weight = sum(values) / Fraction(len(values))
    return blend(weight, parent, child) if weight < 1 else parent


# Steps


def mean(weights: Iterable[int], values: Sequence[Fraction], denominator: int) -> Fraction:
    """The sum of weight times value, divided by the denominator."""
    common = common_denominator(values)
    total = sum(weight * value.numerator * (common // value.denominator) for weight, value in zip(weights, values))
    return Fraction(total, common * denominator)


def masked(mask: Mask, points: list[Point] | dict[int, Point]) -> Point:
    """The point that a mask makes of its sources."""
    sources, weights = [points[source] for source in mask.weights], mask.weights.values()
    value = tuple(mean(weights, axis, mask.denominator) for axis in zip(*(source.value for source in sources)))
    denominator = mask.denominator * lcm(*(source.denominator for source in sources))
    return Point(value, denominator, set().union(*(source.controls for source in sources)))


def check_weights(channel: Channel, level: Level, vertices: Iterable[int], number: int) -> None:
    """Refuses the next level, which has this number, where the weight of one of these vertices is too fine."""
    if any(has_fine_weight(channel, level, vertex) for vertex in vertices):
        raise overflow(channel.track, number, "transition")


def child_points(channel: Channel, level: Level, points: list, masked: Callable) -> list:
    """The points of the next level: of vertices, then of faces, then of edges."""
    sources = points + [masked(face_mask(face), points) for face in level.mesh.faces]
    vertices = [masked(vertex_mask(channel, level, vertex), sources) for vertex in range(level.points)]
    edges = [masked(edge_mask(channel, level, edge), sources) for edge in level.mesh.edges]
    return vertices + sources[level.points :] + edges


def check_numbers(channel: Channel, points: list, number: int, by_table: bool) -> None:
    """Refuses a level by its denominators, by the entries of its table, and then by its values."""
    if any(point.denominator > GREATEST_NUMBER for point in points):
        raise overflow(channel.track, number, "denominator")
    if by_table and sum(len(point.controls) for point in points) > MOST_ENTRIES:
        raise Refusal(TOO_LARGE, f"far: level {number} has too many entries")
    if max((point.denominator for point in points), default=1) * channel.greatest() > GREATEST_NUMBER:
        raise overflow(channel.track, number, "value")


def stepped(channel: Channel, points: list, depth: int, by_table: bool, masked: Callable = masked) -> tuple[Level, list]:
    """The level of a channel after so many steps, and its points from those of level 0, or a Refusal. By a table its
    entries are limited too."""
    level = channel.base
    for number in range(1, depth + 1):
        child = child_level(level, channel.track, number)
        check_weights(channel, level, range(level.points), number)
        points = child_points(channel, level, points, masked)
        check_numbers(channel, points, number, by_table)
        level = child
    return level, points


def positions_of(obj: Mesh, base: Level) -> Channel:
    """The channel of the points of a mesh that was read, from its level 0."""
    return Channel(POSITIONS, base, obj.points, obj.common)


def base_points(channel: Channel) -> list[Point]:
    """The points of level 0."""
    values = [tuple(Fraction(number, channel.common) for number in control) for control in channel.controls]
    return [Point(value, 1, {control}) for control, value in enumerate(values)]


def refined(channel: Channel, depth: int, by_table: bool) -> tuple[Level, list[tuple[Fraction, ...]]]:
    """The level of a channel after so many steps, and its values, or a Refusal."""
    level, points = stepped(channel, base_points(channel), depth, by_table)
    return level, [point.value for point in points]
