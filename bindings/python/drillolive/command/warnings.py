"""Warns of what is lawful in a mesh, and yet seldom meant: texture that is not welded, open seams, too many digits."""

from __future__ import annotations

from bisect import bisect
from collections.abc import Iterable
from dataclasses import replace
from fractions import Fraction
from itertools import accumulate
from typing import Union

from .. import Mesh
from ..errors import Error, ExactOverflowError
from ..fans import MANY, following_corners, single_sides
from .explain import cause_in_file
from .faults import edge_of, lines_of, listed
from .numbers import ROUND_LIMIT
from .obj_edit import rounded_points
from .obj_file import ObjFile
from .surface import DEFAULT_MODE
from .texture import with_stand_ins

# The kind of an overflow by which coordinates have too many digits. Rounding them helps.
VALUE_OF_POSITIONS = 3

Words = tuple[str, ...]
Values = Union[tuple[float, ...], tuple[Fraction, ...]]


def warnings_of(file: ObjFile, depth: int | None) -> list[str]:
    """Returns the warnings on the mesh of a file: where, what there is, and what to do.

    Where a depth is given, the mesh has to be a manifold, and is refined to that depth.
    """
    warnings = [warning for warning in (texture_warning(file), seam_warning(file), crease_warning(file)) if warning]
    return warnings + ([] if depth is None else depth_warnings(file, depth))


def value_of(word: str) -> Fraction:
    """Returns the value of a numeral that the library reads."""
    mantissa = word.lower().partition("e")[0]
    # The exponent of a zero may be so great that the power has no room.
    return Fraction(word) if any(digit in mantissa for digit in "123456789") else Fraction(0)


def nearest_double(word: str) -> float:
    """Returns the double nearest to a numeral."""
    return float(Fraction(word)) if "/" in word else float(word)


def values_by_words(rows: Iterable[Words]) -> dict[Words, Values]:
    """Returns for each row of numerals its values, by which points or texture values are compared.

    They are exact where other rows have the same nearest doubles, and else these doubles, which are found sooner.
    """
    alike: dict[tuple[float, ...], list[Words]] = {}
    for words in set(rows):
        alike.setdefault(tuple(map(nearest_double, words)), []).append(words)
    values: dict[Words, Values] = {}
    for doubles, several in alike.items():
        for words in several:
            values[words] = doubles if len(several) == 1 else tuple(map(value_of, words))
    return values


class FaceLines:
    """Finds the line of the face that has a corner. Corners are counted from 0, one face behind the other."""

    def __init__(self, file: ObjFile) -> None:
        self.ends = list(accumulate(file.face_sizes))
        self.lines = file.face_lines

    def of(self, corners: Iterable[int]) -> str:
        """Returns the lines of the faces of these corners, in words."""
        return lines_of(self.lines[bisect(self.ends, corner)] for corner in corners)


# ---- Texture ----


def texture_warning(file: ObjFile) -> str:
    """Returns the warning on equal texture values with other numbers at one point, or an empty text."""
    found = unwelded(file)
    if not found:
        return ""
    point, corners = found[0]
    values = listed(sorted(number + 1 for number in numbers_at(file, corners)), "vt", "vt")
    more = f", and others at {len(found) - 1} more points" if len(found) > 1 else ""
    cause = f"{FaceLines(file).of(corners)}: {values} are equal and not welded at point {point + 1}{more}"
    return f"{cause}. The texture has a seam there: where none is meant, let these corners name one vt."


def numbers_at(file: ObjFile, corners: Iterable[int]) -> Iterable[int]:
    """Gives the numbers of the texture values that corners name. Values and corners are counted from 0."""
    return (value for value in map(file.texture_corners.__getitem__, corners) if value is not None)


def unwelded(file: ObjFile) -> list[tuple[int, list[int]]]:
    """Returns each point at which equal texture values have other numbers, with a corner for each of these numbers."""
    firsts: dict[int, int] = {}
    several: dict[int, dict[int, int]] = {}  # for a point with several numbers the first corner of each
    for corner, (point, value) in enumerate(zip(file.corners, file.texture_corners)):
        if value is None:
            continue
        first = firsts.setdefault(point, corner)
        other = file.texture_corners[first]
        if other is not None and other != value:
            several.setdefault(point, {other: first}).setdefault(value, corner)
    values = values_by_words(file.values[value] for corners in several.values() for value in corners)
    found = []
    for point, corners in sorted(several.items()):
        groups: dict[Values, list[int]] = {}
        for value, corner in corners.items():
            groups.setdefault(values[file.values[value]], []).append(corner)
        found += [(point, group) for group in groups.values() if len(group) > 1]
    return found


# ---- Seams ----


def seam_warning(file: ObjFile) -> str:
    """Returns the warning on edges of the boundary at one place that no face joins, or an empty text."""
    found = open_seams(file)
    if not found:
        return ""
    following = following_corners(file.face_sizes)
    edges = [f"{file.corners[corner] + 1} to {file.corners[following[corner]] + 1}" for corner in found[0]]
    more = f", and so do edges at {len(found) - 1} more places" if len(found) > 1 else ""
    cause = f"{FaceLines(file).of(found[0])}: {listed(edges, 'the edge from point', 'the edges from point')}"
    return f"{cause} lie at one place, and no face joins them{more}. Merge their points where the surface is to close."


def open_seams(file: ObjFile) -> list[list[int]]:
    """Returns for each place at which several edges of the boundary lie the corners where these begin."""
    following = following_corners(file.face_sizes)
    sides = single_sides(file.corners, following)
    boundary = [side for side, corner in sides.items() if corner != MANY and side[::-1] not in sides]
    values = values_by_words(file.points[point] for side in boundary for point in side)
    places: dict[frozenset[Values], list[int]] = {}
    for side in boundary:
        ends = frozenset(values[file.points[point]] for point in side)
        if len(ends) > 1:
            places.setdefault(ends, []).append(sides[side])
    return [corners for corners in places.values() if len(corners) > 1]


# ---- Creases ----


def crease_warning(file: ObjFile) -> str:
    """Returns the warning on creases between points that no edge joins, or an empty text."""
    found = creases_beside_edges(file)
    if not found:
        return ""
    line, (start, end) = found[0]
    more = f", like {len(found) - 1} more" if len(found) > 1 else ""
    cause = f"line {line}: the crease from point {start + 1} to point {end + 1} is on no edge and has no effect{more}"
    return f"{cause}. Name both ends of an edge: a tag counts points from 0, and a face from 1."


def creases_beside_edges(file: ObjFile) -> list[tuple[int, tuple[int, int]]]:
    """Returns each pair of points of a crease that is no edge of a face, with the line of its tag."""
    pairs = [(line, pair) for line, tag in file.tags for pair in pairs_of_crease(tag.split())]
    if not pairs:
        return []
    following = following_corners(file.face_sizes)
    edges = {edge_of(point, file.corners[following[corner]]) for corner, point in enumerate(file.corners)}
    return [(line, pair) for line, pair in pairs if edge_of(*pair) not in edges]


def pairs_of_crease(words: list[str]) -> list[tuple[int, int]]:
    """Returns the pairs of points that the words of a tag make sharp, counted from 0. Other tags have none."""
    if words[1] != "crease":
        return []
    count = int(words[2].partition("/")[0])
    chain = [int(word) for word in words[3 : 3 + count]]
    return list(zip(chain, chain[1:]))


# ---- Digits ----


def depth_warnings(file: ObjFile, depth: int) -> list[str]:
    """Returns the warning on what keeps the mesh from being refined to a depth, found by refining it."""
    refusal = refusal_of(file, depth)
    if refusal is None:
        return []
    if not is_by_digits(refusal):
        return [f"{cause_in_file(refusal.fault, file)}. {refusal.advice}"]
    line, word = longest_coordinate(file)
    cause = f"line {line}: coordinates such as {word} have too many digits for depth {depth}"
    decimals = enough_decimals(file, depth)
    if decimals is None:
        return [f"{cause}, and rounding does not help. Refine fewer times."]
    return [f"{cause}. Refine with --round {decimals}, which keeps as many decimals as that depth allows."]


def longest_coordinate(file: ObjFile) -> tuple[int, str]:
    """Returns the line, from 1, and the word of the coordinate with the most digits."""
    words = ((line, word) for line, point in zip(file.point_lines, file.points) for word in point)
    return max(words, key=lambda found: sum(map(str.isdigit, found[1])))


def refusal_of(file: ObjFile, depth: int) -> Error | None:
    """Returns what the library refuses the level at a depth for, or None."""
    try:
        level = Mesh.from_obj(with_stand_ins(file).text).refine(depth, DEFAULT_MODE)
        level.uvs  # the texture is made when it is asked for
    except Error as error:
        return error
    return None


def is_by_digits(error: Error) -> bool:
    """Tells whether the coordinates have too many digits."""
    return isinstance(error, ExactOverflowError) and error.fault.kind == VALUE_OF_POSITIONS


def enough_decimals(file: ObjFile, depth: int) -> int | None:
    """Returns the most decimals to which coordinates may be rounded for a depth, or None where 0 are too many."""
    least, most = 0, ROUND_LIMIT
    if not has_room(file, depth, least):
        return None
    while least < most:
        middle = (least + most + 1) // 2
        least, most = (middle, most) if has_room(file, depth, middle) else (least, middle - 1)
    return least


def has_room(file: ObjFile, depth: int, decimals: int) -> bool:
    """Tells whether coordinates that are rounded to so many decimals have not too many digits for a depth."""
    refusal = refusal_of(replace(file, text=rounded_points(file, decimals)[0]), depth)
    return refusal is None or not is_by_digits(refusal)
