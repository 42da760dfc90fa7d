"""Pages of drawings as SVG text, and the options that scripts of pictures share."""

from __future__ import annotations

import argparse
import sys
from html import escape
from math import ceil, fsum, sqrt
from typing import Iterable, Iterator, NamedTuple

from picture_view import Place, View

EDGE, TEXT = "#41597a", "#5a6b80"
MARGIN = 14  # pixels about a drawing
LETTERS = 30  # how high the line of a caption is
LETTER = 7.4  # how wide a letter of a caption is, at most on average
STYLE = f'fill="{TEXT}" font-family="sans-serif" font-size="14"'
Box = tuple[float, float, float, float]  # the left, upper, right and lower end


class Drawing(NamedTuple):
    """Lines of SVG about (0, 0), the box that they lie in, and the words below them."""

    box: Box
    lines: list[str]
    caption: str

    @property
    def width(self) -> float:
        return self.box[2] - self.box[0]

    def panel_width(self) -> float:
        """How wide the drawing is with its margins, or its caption where that is wider."""
        return max(self.width, LETTER * len(self.caption)) + 2 * MARGIN


def box_of(places: Iterable[Place]) -> Box:
    across, down = zip(*places)
    return min(across), min(down), max(across), max(down)


def path(places: Iterable[Place]) -> str:
    """The path through places, in tenths of a pixel: the first, and of each other how far it is from the one before."""
    tenths = [tuple(round(10 * value) for value in place) for place in places]
    steps = [(b - a) / 10 for one, following in zip(tenths, tenths[1:]) for a, b in zip(one, following)]
    line = "".join(f"{step:g}" if step < 0 or number == 0 else f" {step:g}" for number, step in enumerate(steps))
    return f"M{tenths[0][0] / 10:g} {tenths[0][1] / 10:g}" + ("l" + line if steps else "h0")


def line_width(given: float | None, faces: int) -> float:
    """The width of an edge's line: the one that is given, or else a thinner one for more faces."""
    return min(0.9, max(0.4, 14 / sqrt(faces + 1))) if given is None else given


# Pages


def words_line(across: float, down: float, words: str, anchor: str = "middle") -> str:
    return f'<text x="{across:g}" y="{down:g}" text-anchor="{anchor}" {STYLE}>{escape(words)}</text>'


def rows_of(drawings: list[Drawing], columns: int | None) -> list[list[Drawing]]:
    columns = columns or len(drawings)
    return [drawings[first : first + columns] for first in range(0, len(drawings), columns)]


def widths_of(rows: list[list[Drawing]]) -> list[float]:
    """The width of each column, that of its widest panel."""
    columns = range(max(map(len, rows)))
    return [max(row[column].panel_width() for row in rows if column < len(row)) for column in columns]


def row_lines(row: list[Drawing], widths: list[float], left: float, down: float, high: float, aligned: bool) -> Iterator[str]:
    """The lines of a row of drawings and captions. Aligned drawings have their middles (0, 0) at one height."""
    upper, lower = min(drawing.box[1] for drawing in row), max(drawing.box[3] for drawing in row)
    for drawing, width in zip(row, widths):
        middle = (upper + lower) / 2 if aligned else (drawing.box[1] + drawing.box[3]) / 2
        across = left + width / 2 - (drawing.box[0] + drawing.box[2]) / 2
        yield f'<g transform="translate({across:.1f} {down + MARGIN + high / 2 - middle:.1f})">'
        yield from drawing.lines
        yield "</g>"
        if drawing.caption:
            yield words_line(round(left + width / 2), round(down + high + 2 * MARGIN + 14), drawing.caption)
        left += width


def page(
    drawings: list[Drawing],
    columns: int | None = None,
    aligned: bool = False,
    head: Iterable[str] = (),
    below: Drawing | None = None,
) -> Iterator[str]:
    """The SVG text of drawings in rows, and of one below them. A row that is not full is in the middle."""
    rows = rows_of(drawings, columns)
    widths, lines, down = widths_of(rows), [], 0.0
    whole = max(fsum(widths), below.panel_width() if below else 0.0)
    for row in rows + ([[below]] if below else []):
        boxes = [drawing.box for drawing in row]
        high = max(box[3] for box in boxes) - min(box[1] for box in boxes) if aligned else max(box[3] - box[1] for box in boxes)
        wide = [below.panel_width()] if below and row[0] is below else widths[: len(row)]
        lines += row_lines(row, wide, (whole - fsum(wide)) / 2, down, high, aligned)
        down += high + 2 * MARGIN + (LETTERS if row[0].caption else 0)
    width, height = ceil(whole), ceil(down)
    yield f'<svg xmlns="http://www.w3.org/2000/svg" viewBox="0 0 {width} {height}" width="{width}" height="{height}">'
    yield from head
    yield '<rect width="100%" height="100%" fill="#ffffff"/>'
    yield from lines
    yield "</svg>"


# Options, files


def parser_of(description: str, size: int, tilt: int = 25) -> argparse.ArgumentParser:
    """A parser with the options of a view and of the file to write."""
    parser = argparse.ArgumentParser(description=description)
    parser.add_argument("-o", "--output", help="the file to write; standard output without it")
    parser.add_argument("--size", type=float, default=size, help=f"pixels of a drawing's greater extent (default {size})")
    parser.add_argument("--turn", type=float, default=30, help="degrees round the axis that points up (default 30)")
    parser.add_argument("--tilt", type=float, default=tilt, help=f"degrees that the eye looks down (default {tilt})")
    parser.add_argument("--distance", type=float, default=5, help="the eye's distance in radii; 0: no perspective")
    parser.add_argument("--up", choices=("y", "z"), default="z", help="the axis that points up (default z)")
    parser.add_argument("--line", type=float, help="the width of an edge's line; without it thinner for more faces")
    return parser


def add_columns(parser: argparse.ArgumentParser) -> None:
    parser.add_argument("--columns", type=int, help="how many drawings each row has (default all)")


def parsed(parser: argparse.ArgumentParser) -> argparse.Namespace:
    """The options, where they are in range."""
    options = parser.parse_args()
    if options.distance and options.distance <= 1:
        parser.error("the eye's distance must be 0 or above 1")
    if getattr(options, "columns", None) is not None and options.columns < 1:
        parser.error("a row has at least one drawing")
    return options


def view_of(options: argparse.Namespace) -> View:
    return View(options.size, options.turn, options.tilt, options.distance)


def read_bytes(name: str) -> bytes:
    """The bytes of a file; `-` is standard input."""
    if name == "-":
        return sys.stdin.buffer.read()
    with open(name, "rb") as file:
        return file.read()


def write_lines(lines: Iterable[str], name: str | None) -> None:
    """Writes the lines to the file of this name, and to standard output where there is no name."""
    text = "".join(line + "\n" for line in lines)
    if name:
        with open(name, "w", encoding="utf-8") as file:
            file.write(text)
    else:
        sys.stdout.write(text)
