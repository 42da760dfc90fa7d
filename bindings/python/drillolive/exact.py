"""Exact numbers: fractions over a common denominator, and the library's integers of 128 bits."""

from __future__ import annotations

from array import array
from ctypes import c_int64, c_uint64
from fractions import Fraction
from math import lcm
from typing import Any, Iterable, Sequence

from .errors import argument_error, number_error

WORD = 2**64 - 1
LEAST_WIDE, GREATEST_WIDE = 1 - 2**127, 2**127 - 1


def ratio(value: Any, place: int) -> tuple[int, int]:
    """Returns the numerator and the denominator of a number, in lowest terms.

    NumberError: it is infinite or no number. ArgumentError: it is of another type. `place` is its place, counted from
    0.
    """
    try:
        if hasattr(value, "as_integer_ratio"):
            numerator, denominator = value.as_integer_ratio()
        else:
            numerator, denominator = value.numerator, value.denominator
        return int(numerator), int(denominator)
    except (ValueError, OverflowError):
        raise number_error(0, place, "is not finite", "Replace this number by a finite one.") from None
    except AttributeError:
        advice = "Give floats, whole numbers or fractions.Fraction."
        raise argument_error(f"number {place} is no number: {value!r}", advice) from None


def common_denominator(ratios: Sequence[tuple[int, int]]) -> tuple[list[int], int]:
    """Returns the numerators of fractions over their least common denominator, and this denominator."""
    common = lcm(*{denominator for _, denominator in ratios})
    return [numerator * (common // denominator) for numerator, denominator in ratios], common


def on_grid(number: tuple[int, int], bits: int) -> tuple[int, int]:
    """Returns the nearest multiple of 2^-bits to a fraction, of two as near the even one, in lowest terms."""
    return Fraction(round(Fraction(*number) * 2**bits), 2**bits).as_integer_ratio()


def signed_words(numbers: Iterable[int]) -> array[int]:
    """Returns numbers of 64 bits with a sign."""
    return array("q", numbers)


def wide_words(numbers: Sequence[int]) -> array[int]:
    """Returns the two words of each number of 128 bits, the low one first. NumberError: a number does not fit."""
    words = array("Q", bytes(16 * len(numbers)))
    for place, number in enumerate(numbers):
        if not LEAST_WIDE <= number <= GREATEST_WIDE:
            raise number_error(1, place, "is too wide: it has more than 128 bits", "Give numbers with fewer digits.")
        words[2 * place], words[2 * place + 1] = number & WORD, number >> 64 & WORD
    return words


def wides_at(address: int | None, count: int) -> list[int]:
    """Returns so many integers of 128 bits, with a sign, at an address."""
    if not count:
        return []
    low = (c_uint64 * (2 * count)).from_address(address)[::2]
    high = (c_int64 * (2 * count)).from_address(address)[1::2]
    return [upper << 64 | lower for lower, upper in zip(low, high)]


def fractions_at(
    numerators: int | None, denominators: int | None, count: int, columns: int
) -> list[tuple[Fraction, ...]]:
    """Returns rows of fractions: `columns` numerators for each of `count` rows, and one denominator."""
    whole = iter(wides_at(numerators, columns * count))
    rows = zip(wides_at(denominators, count), *[whole] * columns)
    return [tuple(Fraction(number, denominator) for number in numbers) for denominator, *numbers in rows]
