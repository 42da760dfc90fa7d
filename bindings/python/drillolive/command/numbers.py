"""How numbers are written: the nearest doubles in their shortest form, with some digits, or exact fractions."""

from __future__ import annotations

import argparse
from collections.abc import Iterator, Sequence
from dataclasses import dataclass
from fractions import Fraction
from itertools import chain
from typing import Any

BLOCK = 4096  # how many lines are made at once
MOST_DIGITS = 17  # as many as tell all doubles apart
ROUND_LIMIT = 18


@dataclass(frozen=True)
class NumberForm:
    """The form of numbers: exact fractions, doubles with this many significant digits, or doubles in shortest form."""

    exact: bool = False
    digits: int | None = None

    @property
    def field(self) -> str:
        """The field of a number in a format."""
        if self.exact:
            return "%s"
        return "%r" if self.digits is None else f"%.{self.digits}g"

    def word(self, number: Fraction) -> str:
        """Returns the word of an exact number."""
        return shortened(self.field % (number if self.exact else float(number)) + "\n")[:-1]

    def lines(self, keyword: str, rows: Any) -> Iterator[str]:
        """Gives the lines of rows of numbers, which all have the same length, in blocks."""
        for first in range(0, len(rows), BLOCK):
            part = rows[first : first + BLOCK]
            line = keyword + f" {self.field}" * len(part[0]) + "\n"
            yield shortened(line * len(part) % tuple(flat(part)))


def shortened(lines: str) -> str:
    """Returns lines of numbers without `.0` at the end of a word, and without the sign of a zero."""
    lines = lines.replace(".0 ", " ").replace(".0\n", "\n")
    # Neighbours share a blank, so that a second pass is needed where two such words stand together.
    for _ in range(2 if "-0" in lines else 0):
        lines = lines.replace(" -0 ", " 0 ").replace(" -0\n", " 0\n")
    return lines


def flat(rows: Any) -> list[Any]:
    """Returns the numbers of an array, or of a list of rows, one row behind the other."""
    return rows.ravel().tolist() if hasattr(rows, "ravel") else list(chain.from_iterable(rows))


def plain(numbers: Any) -> list[int]:
    """Returns whole numbers of an array or a sequence as a list."""
    return numbers.tolist() if hasattr(numbers, "tolist") else list(numbers)


def whole(least: int, most: int) -> Any:
    """Returns what reads a whole number in this range from a word of the command line."""

    def read(word: str) -> int:
        if not (word.isascii() and word.isdigit() and least <= int(word) <= most):
            raise argparse.ArgumentTypeError(f"{word} is not a whole number from {least} to {most}")
        return int(word)

    return read


def add_number_arguments(parser: argparse.ArgumentParser) -> None:
    """Adds the options that say how numbers are written."""
    group = parser.add_mutually_exclusive_group()
    group.add_argument("--exact", action="store_true", help="write exact fractions, such as 5/9, which most programs cannot read")
    add_digits_argument(group)


def add_digits_argument(parser: Any) -> None:
    """Adds the option that rounds numbers to significant digits, to a parser or to a group of one."""
    text = f"write N significant digits: 1 to {MOST_DIGITS}"
    parser.add_argument("--digits", type=whole(1, MOST_DIGITS), metavar="N", help=text)


def number_form(arguments: argparse.Namespace) -> NumberForm:
    """Returns the form that the options say."""
    return NumberForm(arguments.exact, arguments.digits)


def joined(first: Sequence[Any], second: Sequence[Any]) -> list[tuple[Any, ...]]:
    """Returns the rows of two lists or arrays side by side."""
    return [(*left, *right) for left, right in zip(as_rows(first), as_rows(second))]


def as_rows(rows: Any) -> list[Any]:
    """Returns the rows of an array or a list as a list."""
    return rows.tolist() if hasattr(rows, "tolist") else rows
