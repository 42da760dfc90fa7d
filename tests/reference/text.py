"""What the texts of the references share: numbers, exact or with decimals, and lines.

It is written from the definitions of `subdiv_model` (Text and NumberText), and shares nothing with the program.
"""

from __future__ import annotations

from fractions import Fraction
from typing import Iterable, Sequence


# Numbers


def decimal_text(value: Fraction, digits: int) -> str:
    """A value rounded to so many decimals, half to even; one that is rounded to 0 has no sign."""
    units = round(value * 10**digits)
    text = str(abs(units)).rjust(digits + 1, "0")
    whole, decimals = text[: len(text) - digits], text[len(text) - digits :]
    return ("-" if units < 0 else "") + whole + ("." + decimals if digits else "")


def number_text(value: Fraction, digits: int | None) -> str:
    """A value in lowest terms, or with decimals where a number of them is given."""
    return str(value) if digits is None else decimal_text(value, digits)


# Lines


def line(*words: object) -> str:
    return " ".join(map(str, words)) + "\n"


def point_lines(keyword: str, points: Iterable[Sequence[Fraction]], digits: int | None) -> list[str]:
    return [line(keyword, *(number_text(axis, digits) for axis in point)) for point in points]


def corner_texts(face: Iterable[int]) -> list[str]:
    """The corners of a face, from 1."""
    return [str(corner + 1) for corner in face]


def textured_corner_texts(faces: tuple[Iterable[int], Iterable[int]]) -> list[str]:
    """The corners of a face and its texture points, each with the other."""
    return ["/".join(corners) for corners in zip(*map(corner_texts, faces))]
