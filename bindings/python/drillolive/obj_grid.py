"""Rounds the points of OBJ text to a grid."""

from __future__ import annotations

import re
from decimal import Decimal, InvalidOperation
from fractions import Fraction

from .exact import on_grid

DECIMAL = re.compile(r"[+-]?([0-9]+\.?[0-9]*|\.[0-9]+)([eE][+-]?[0-9]+)?")
FRACTION = re.compile(r"[+-]?[0-9]+/0*[1-9][0-9]*")

# A decimal whose first digit stands at a higher place is too large to be read, and one at a lower place rounds to 0.
HIGHEST_PLACE, LOWEST_PLACE = 40, -60
LEAST = Fraction(1, 10**60)


def value_of_numeral(word: str) -> Fraction | None:
    """Returns the value of a numeral, or None where the word is none, or too large to be read.

    A decimal that is too small for any grid has the value LEAST, which rounds to 0 too.
    """
    if FRACTION.fullmatch(word):
        return Fraction(word)
    if not DECIMAL.fullmatch(word):
        return None
    try:
        number = Decimal(word)
    except InvalidOperation:  # the exponent is too great for a decimal
        return None
    if number and number.adjusted() < LOWEST_PLACE:
        return LEAST
    return Fraction(number) if number and number.adjusted() <= HIGHEST_PLACE else None


def numeral_on_grid(word: str, bits: int) -> str:
    """Returns a numeral rounded to a multiple of 2^-bits, half to even. It comes back as it is where it is one."""
    value = value_of_numeral(word)
    if value is None:
        return word
    rounded = Fraction(*on_grid(value.as_integer_ratio(), bits))
    return word if rounded == value else str(rounded)


def points_on_grid(text: bytes, bits: int) -> tuple[bytes, int]:
    """Rounds the coordinates of OBJ text to multiples of 2^-bits, half to even. Words that are no numerals stay.

    Returns the text, whose lines keep their numbers, and how many coordinates changed.
    """
    lines, changed = text.decode("utf-8", "surrogateescape").split("\n"), 0
    for number, line in enumerate(lines):
        words = line.split()
        if len(words) < 4 or words[0] != "v":
            continue
        rounded = [numeral_on_grid(word, bits) for word in words[1:4]]
        moved = sum(old != new for old, new in zip(words[1:4], rounded))
        if moved:
            lines[number] = " ".join(["v", *rounded, *words[4:]])
            changed += moved
    return "\n".join(lines).encode("utf-8", "surrogateescape"), changed
