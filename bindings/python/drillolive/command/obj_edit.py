"""Changes the text of an OBJ file line by line, so that each line keeps its number."""

from __future__ import annotations

from collections.abc import Iterable
from decimal import Decimal, InvalidOperation, localcontext
from fractions import Fraction

from ..obj_grid import DECIMAL, FRACTION
from .obj_file import ObjFile, decode, encode

# A numeral that the library reads has at most 37 digits before the point, and `--round` keeps at most 18 behind it.
LONGEST = 80


def with_lines(text: bytes, numbers: Iterable[int], lines: Iterable[str]) -> bytes:
    """Returns the text with other lines at these numbers, which count from 1."""
    changed = decode(text).split("\n")
    for number, line in zip(numbers, lines):
        changed[number - 1] = line
    return encode("\n".join(changed))


def with_points(file: ObjFile, points: Iterable[Iterable[str]]) -> bytes:
    """Returns the text of a file with other points: the words of three coordinates for each `v` line."""
    return with_lines(file.text, file.point_lines, ("v " + " ".join(point) for point in points))


def rounded_numeral(word: str, decimals: int) -> str:
    """Returns a numeral rounded to so many decimals, half to even. A word that is no numeral comes back as it is."""
    with localcontext() as context:
        context.prec = LONGEST
        try:
            if DECIMAL.fullmatch(word):
                return format(Decimal(word).quantize(Decimal(1).scaleb(-decimals)), "f")
            if FRACTION.fullmatch(word):
                return format(Decimal(round(Fraction(word) * 10**decimals)).scaleb(-decimals), "f")
        except InvalidOperation:
            # The number is too large to be read, and the library says so.
            pass
    return word


def rounded_points(file: ObjFile, decimals: int) -> tuple[bytes, int]:
    """Rounds the coordinates of a file to so many decimals, half to even.

    Returns the text with rounded coordinates, and how many coordinates changed.
    """
    words = [tuple(rounded_numeral(word, decimals) for word in point) for point in file.points]
    pairs = ((old, new) for point, rounded in zip(file.points, words) for old, new in zip(point, rounded))
    return with_points(file, words), sum(old != new and not _are_equal(old, new) for old, new in pairs)


def _are_equal(first: str, second: str) -> bool:
    """Tells whether two numerals have one value. The second has no exponent."""
    if "/" in first or "/" in second:
        return Fraction(first) == Fraction(second)
    # Decimals compare exactly, whatever their exponents are.
    return Decimal(first) == Decimal(second)
