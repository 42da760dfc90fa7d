"""A plain, slow reader of OBJ text with tags: its mesh, or the fault of its least bad line.

It is written from docs/guide/formats.md only, and shares nothing with the program. The references and the scripts of pictures
read through it.
"""

from __future__ import annotations

import re
import sys
from collections import Counter
from dataclasses import dataclass, field
from fractions import Fraction
from math import gcd
from typing import List, Tuple, Union

Face = Tuple[int, ...]
Edge = Tuple[int, int]
Sharpness = Union[Fraction, float]  # a fraction below 10, or infinite
ReadLines = List[Tuple[int, List[Fraction]]]  # of each line its number and its values

MARK = b"\xef\xbb\xbf"
DECIMAL = re.compile(rb"[+-]?(?:(\d+)\.?(\d*)|()\.(\d+))(?:[eE]([+-]?\d+))?")
FRACTION = re.compile(rb"[+-]?(\d+)/(\d+)")
INDEX = re.compile(rb"-?\d+")
COUNTS = re.compile(rb"(\d{1,9})/(\d{1,9})/(\d{1,9})")
UNREAD = (b"vn", b"g", b"o", b"s", b"usemtl", b"mtllib", b"l", b"p")
DROPPED_TAGS = (b"facevaryinginterpolateboundary", b"facevaryingpropagatecorners")
LEAST_WORDS = {b"v": 3, b"vt": 1, b"f": 1, b"t": 2}
MOST_DIGITS = 37
GREATEST_COMMON = 10**37
GREATEST_SEMI_SHARP_DENOMINATOR = 10**6
# The boundary modes, by their numbers in tags.
HIDDEN, EDGE_AND_CORNER, EDGE_ONLY = 0, 1, 2

if hasattr(sys, "set_int_max_str_digits"):
    sys.set_int_max_str_digits(0)


class Fault(Exception):
    """What is wrong with a line; `line` is counted from 1."""

    def __init__(self, cause: str, line: int | None = None):
        super().__init__(cause)
        self.cause = cause
        self.line = line


@dataclass
class Mesh:
    """Points are whole numbers over `common`, and points and faces count from 0. Creases (two vertices and their
    sharpness), corner tags (a vertex and its sharpness) and holes (faces) are in the order of the text. Texture values
    are whole numbers over `texture_common`; where there is texture, `texture_corners` has for each corner of each face
    the number of its value, from 0."""

    points: list[tuple[int, ...]] = field(default_factory=list)
    common: int = 1
    faces: list[Face] = field(default_factory=list)
    has_texture: bool = False
    texture: list[tuple[int, ...]] = field(default_factory=list)
    texture_common: int = 1
    texture_corners: list[Face] = field(default_factory=list)
    creases: list[tuple[Edge, Fraction]] = field(default_factory=list)
    corner_tags: list[tuple[int, Fraction]] = field(default_factory=list)
    holes: list[int] = field(default_factory=list)
    mode: int = EDGE_ONLY
    method: bytes = b"normal"


def words_of(line: bytes) -> list[bytes]:
    """The words of a line, up to a comment."""
    words = []
    for word in re.split(rb"[ \t\r]+", line):
        if word.startswith(b"#"):
            break
        if word:
            words.append(word)
    return words


# Words


def decimal_amount(match: re.Match) -> Fraction:
    """The amount of a decimal of at most 37 digits and 37 decimals in normal form."""
    whole, behind = (match[1], match[2]) if match[1] is not None else (match[3], match[4])
    digits = (whole + behind).lstrip(b"0")
    if not digits:
        return Fraction(0)
    kept = digits.rstrip(b"0")
    tens = int(match[5] or 0) - len(behind) + len(digits) - len(kept)
    if len(kept) + max(tens, 0) > MOST_DIGITS or -tens > MOST_DIGITS:
        raise Fault("number out of range")
    return int(kept) * Fraction(10) ** tens


def fraction_amount(match: re.Match) -> Fraction:
    """The amount of a fraction of at most 37 digits in each part."""
    numerator, denominator = (part.lstrip(b"0") for part in match.groups())
    if not denominator:
        raise Fault("bad numeral")
    if max(len(numerator), len(denominator)) > MOST_DIGITS:
        raise Fault("number out of range")
    return Fraction(int(numerator or b"0"), int(denominator))


def read_numeral(word: bytes) -> Fraction:
    """The value of a numeral that is in range."""
    decimal, fraction = DECIMAL.fullmatch(word), FRACTION.fullmatch(word)
    if not decimal and not fraction:
        raise Fault("bad numeral")
    amount = decimal_amount(decimal) if decimal else fraction_amount(fraction)
    return -amount if word.startswith(b"-") else amount


def place(word: bytes, before: int, whole: int) -> int:
    """The place, from 0, that an index of a face names."""
    index = int(word)
    if 1 <= index <= whole:
        return index - 1
    if -before <= index <= -1:
        return before + index
    raise Fault("index out of range")


def form(corner: bytes) -> tuple[int, bool] | None:
    """How many parts a corner has, and whether it names a texture value; None where it has no form."""
    parts = corner.split(b"/")
    may_be_empty = len(parts) == 3
    good = len(parts) <= 3 and all(
        INDEX.fullmatch(part) or (part == b"" and may_be_empty and number == 1) for number, part in enumerate(parts)
    )
    return (len(parts), len(parts) > 1 and parts[1] != b"") if good else None


def read_corner(corner: bytes, first: bytes, before: Counter[bytes], whole: Counter[bytes]) -> tuple[int, int | None]:
    """The point that a corner names, and the texture value, or None where it names none."""
    if form(corner) is None or form(corner) != form(first):
        raise Fault("bad face corner")
    parts = corner.split(b"/")
    vertex = place(parts[0], before[b"v"], whole[b"v"])
    return vertex, place(parts[1], before[b"vt"], whole[b"vt"]) if form(corner)[1] else None


# Tags


def read_listed(word: bytes, count: int) -> int:
    """An index from 0 to below the count."""
    if not INDEX.fullmatch(word):
        raise Fault("bad tag")
    if not 0 <= int(word) < count:
        raise Fault("tag index out of range")
    return int(word)


def is_fine_enough(word: bytes, value: Fraction) -> bool:
    """Whether a sharpness below 10 is written so that it is kept: a decimal has at most six decimals."""
    if b"/" in word:
        return value.denominator <= GREATEST_SEMI_SHARP_DENOMINATOR
    return GREATEST_SEMI_SHARP_DENOMINATOR % value.denominator == 0


def read_sharpness(word: bytes) -> Fraction:
    """A sharpness; one of 10 or more is infinite."""
    value = read_numeral(word)
    if value < 0 or (value < 10 and not is_fine_enough(word, value)):
        raise Fault("sharpness out of range")
    return value


def fits(name: bytes, wholes: int, numerals: int, strings: int) -> bool:
    """Whether a tag of this name may have these counts."""
    if name == b"crease":
        return wholes >= 2 and numerals in (1, wholes - 1) and strings == 0
    if name == b"corner":
        return wholes >= 1 and numerals in (1, wholes) and strings == 0
    if name == b"hole":
        return wholes >= 1 and numerals == 0 and strings == 0
    if name == b"interpolateboundary":
        return (wholes, numerals, strings) == (1, 0, 0)
    if name == b"creasemethod":
        return (wholes, numerals, strings) == (0, 0, 1)
    return name in DROPPED_TAGS


def each(sharpness: list[Fraction], count: int) -> list[Fraction]:
    """One sharpness for each of a count, where one may be that of all."""
    return sharpness * count if len(sharpness) == 1 else sharpness


def keep_listed(mesh: Mesh, name: bytes, listed: list[int], sharpness: list[Fraction]) -> None:
    """Keeps the pairs of a chain, the vertices or the faces that a tag names."""
    if name == b"crease":
        mesh.creases += zip(zip(listed, listed[1:]), each(sharpness, len(listed) - 1))
    elif name == b"corner":
        mesh.corner_tags += zip(listed, each(sharpness, len(listed)))
    else:
        mesh.holes += listed


def read_tag(mesh: Mesh, words: list[bytes], whole: Counter[bytes]) -> None:
    name, values = words[1], words[3:]
    counts = COUNTS.fullmatch(words[2])
    if not counts or not fits(name, *map(int, counts.groups())) or sum(map(int, counts.groups())) != len(values):
        raise Fault("bad tag")
    wholes = int(counts[1])
    if name in (b"crease", b"corner", b"hole"):
        listed = [read_listed(word, whole[b"f" if name == b"hole" else b"v"]) for word in values[:wholes]]
        keep_listed(mesh, name, listed, [read_sharpness(word) for word in values[wholes:]])
    elif name == b"interpolateboundary":
        if not INDEX.fullmatch(values[0]) or int(values[0]) not in (HIDDEN, EDGE_AND_CORNER, EDGE_ONLY):
            raise Fault("bad tag")
        mesh.mode = int(values[0])
    elif name == b"creasemethod":
        if values[0] not in (b"normal", b"chaikin"):
            raise Fault("bad tag")
        mesh.method = values[0]


# Lines


def check_line(words: list[bytes]) -> None:
    """Refuses a line for what is wrong before its words are judged one by one."""
    if words[-1].endswith(b"\\"):
        raise Fault("line continuation")
    if words[0] not in LEAST_WORDS and words[0] not in UNREAD:
        raise Fault("unknown keyword")
    if len(words) - 1 < LEAST_WORDS.get(words[0], 0):
        raise Fault("line too short")


def common_with(common: int, values: list[Fraction]) -> int:
    """The least common multiple of a common denominator and the denominators of some values."""
    for value in values:
        common = common // gcd(common, value.denominator) * value.denominator
    return common


def line_of_late_fault(channel: ReadLines, common: int) -> int | None:
    """The line of a channel's late fault, None where it has none. A channel has its lines in order, each with its
    number and its values, and a common denominator to begin with. The fault is at the line that takes the common
    denominator past 10^37, or else at the first with a number that is too long over it."""
    for line, values in channel:
        common = common_with(common, values)
        if common > GREATEST_COMMON:
            return line
    for line, values in channel:
        if any(abs(value) * common >= 10**MOST_DIGITS for value in values):
            return line
    return None


def over_common(channel: ReadLines, common: int) -> tuple[list[Face], int]:
    """The values of a channel as whole numbers, and the common denominator below them, a multiple of the one
    to begin with."""
    common = common_with(common, [value for _, values in channel for value in values])
    return [tuple(int(value * common) for value in values) for _, values in channel], common


def read_obj(data: bytes, scale: int = 0) -> Mesh:
    """The mesh of a text, or the Fault of its least bad line. The common denominator of the points is a multiple of ten
    to the scale."""
    text = data[len(MARK) :] if data.startswith(MARK) else data
    lines = [words_of(line) for line in text.split(b"\n")]
    whole = Counter(words[0] for words in lines if words)
    before, textured = Counter(), []
    channels = {b"v": [], b"vt": []}
    mesh = Mesh()
    for number, words in enumerate(lines, start=1):
        if not words:
            continue
        try:
            check_line(words)
            if words[0] in channels:
                values = [read_numeral(word) for word in words[1:]]
                # a second texture value that is missing is 0
                channels[words[0]].append((number, values[:3] if words[0] == b"v" else [*values, Fraction(0)][:2]))
            elif words[0] == b"f":
                corners = [read_corner(word, words[1], before, whole) for word in words[1:]]
                mesh.faces.append(tuple(vertex for vertex, _ in corners))
                textured.append(tuple(texture for _, texture in corners))
            elif words[0] == b"t":
                read_tag(mesh, words, whole)
        except Fault as fault:
            raise Fault(fault.cause, number) from None
        before[words[0]] += 1
    starts = {b"v": 10**scale, b"vt": 1}
    late_faults = [line_of_late_fault(channel, starts[name]) for name, channel in channels.items()]
    if any(late_faults):
        raise Fault("number out of range", min(filter(None, late_faults)))
    mesh.points, mesh.common = over_common(channels[b"v"], starts[b"v"])
    mesh.texture, mesh.texture_common = over_common(channels[b"vt"], starts[b"vt"])
    mesh.has_texture = bool(textured) and all(None not in numbers for numbers in textured)
    mesh.texture_corners = textured if mesh.has_texture else []
    return mesh
