#!/usr/bin/env python3
"""Draws the sparse levels of a mesh side by side as one SVG picture.

It reads the text of `far sparse`. Green faces are selected, blue ones are leaves, and sand ones are outer faces. Holes are not
filled. Pale faces are leaves of the levels before, which lie where the level has no faces.

    ./far sparse depth=3 < examples/cube.obj | tools/sparse_picture.py --columns 2 > cube.svg

The same text and options give the same bytes. The status is 0, and 2 where the options are wrong. A text of another form ends
it with status 1 and an error of Python.
"""

from __future__ import annotations

import argparse
from fractions import Fraction
from typing import Iterator, NamedTuple, Sequence

from picture_mesh import Mesh, Point, is_closed, plain_mesh, upright
from picture_page import (
    EDGE,
    MARGIN,
    Drawing,
    add_columns,
    box_of,
    line_width,
    page,
    parsed,
    parser_of,
    path,
    read_bytes,
    view_of,
    words_line,
    write_lines,
)
from picture_shade import Colours, colour_of, hexadecimal
from picture_view import Frame, Seen, Side, frame_of, seen_from, seen_sides

# Of each kind its name, and its colours in the shade, in the light, and turned straight to it.
KINDS = {
    "s": ("selected", ((74, 128, 84), (158, 210, 156), (186, 228, 182))),
    "l": ("leaf", ((92, 116, 150), (168, 197, 228), (192, 215, 239))),
    "r": ("outer", ((140, 122, 96), (222, 202, 168), (234, 218, 190))),
    "h": ("hole", None),
}
BEFORE = "leaf of a level before", ((214, 219, 226), (242, 244, 247), (253, 253, 254))
PALE_EDGE = "#b4bcc8"
ENTRY = 110  # pixels of an entry of the legend


class Level(NamedTuple):
    """A level: its line without the word `level`, its points, and of each face its kind and its points from 0."""

    counts: str
    points: list[Point]
    faces: list[tuple[str, list[int]]]


def read_levels(text: str, up: str) -> list[Level]:
    """The levels of a text of `far sparse`."""
    levels: list[Level] = []
    for line in text.splitlines():
        keyword, *words = line.split()
        if keyword == "level":
            levels.append(Level(f"level {words[0]}: {words[2]} points, {words[4]} faces", [], []))
        elif keyword == "v":
            levels[-1].points.append(upright(tuple(map(Fraction, words)), up))
        elif keyword == "f":
            levels[-1].faces.append((words[0], [int(word) - 1 for word in words[2:]]))
    return levels


def drawn(levels: Sequence[Level]) -> tuple[Mesh, list[str | None]]:
    """What is drawn of the last of these levels as one mesh: the leaves of the levels before, and then its own faces. Each
    face has its kind, or None where it is a leaf of a level before."""
    points: list[Point] = []
    faces: list[list[int]] = []
    kinds: list[str | None] = []
    for level in levels:
        is_last = level is levels[-1]
        kept = [(kind, face) for kind, face in level.faces if is_last or kind == "l"]
        faces += [[len(points) + corner for corner in face] for _, face in kept]
        kinds += [kind if is_last else None for kind, _ in kept]
        points += level.points
    return plain_mesh(points, faces), kinds


def shown_sides(first: Level, mesh: Mesh, seen: Seen) -> list[Side]:
    """The sides that are drawn. Where level 0 is closed and has no holes, these are the fronts."""
    faces = [face for _, face in first.faces]
    if not is_closed(faces) or any(kind == "h" for kind, _ in first.faces):
        return list(seen_sides(mesh.faces, seen))
    return [side for side in seen_sides(mesh.faces, seen) if side.is_front]


def face_line(side: Side, outline: str, kind: str | None) -> str:
    """The line of a face of a kind, or of a leaf of a level before."""
    _, colours = KINDS[kind] if kind else BEFORE
    style = "" if kind else f'stroke="{PALE_EDGE}" '
    fill = f'{style}fill="{colour_of(side, colours)}"' if colours else 'fill="none" stroke-dasharray="2 3"'
    return f'<path {fill} d="{outline}z"/>'


def drawing(levels: Sequence[Level], frame: Frame, options: argparse.Namespace) -> Drawing:
    """The drawing of the last of these levels."""
    mesh, kinds = drawn(levels)
    seen = seen_from(frame, mesh.points)
    # Leaves of levels before come first, so that none of them lies over the edge of another face.
    shown = sorted(shown_sides(levels[0], mesh, seen), key=lambda side: (kinds[side.number] is not None, -side.away))
    width = line_width(options.line, len(mesh.faces))
    lines = [f'<g stroke="{EDGE}" stroke-width="{width:.2f}" stroke-linejoin="round" stroke-linecap="round">']
    for side in shown:
        outline = path(seen.places[vertex] for vertex in mesh.faces[side.number])
        lines.append(face_line(side, outline, kinds[side.number]))
    return Drawing(box_of(seen.places_of(mesh.faces)), [*lines, "</g>"], levels[-1].counts)


def legend(kinds: list[tuple[str, Colours]]) -> Drawing:
    """The names of the colours of these kinds."""
    lines = []
    for number, (name, colours) in enumerate(kinds):
        lines.append(f'<rect x="{ENTRY * number}" y="0" width="14" height="14" fill="{hexadecimal(colours[1])}" stroke="{EDGE}"/>')
        lines.append(words_line(ENTRY * number + 20, 12, name, "start"))
    return Drawing((0, 0, ENTRY * len(kinds) + 4 * MARGIN, 14), lines, "")


def picture(levels: list[Level], options: argparse.Namespace) -> Iterator[str]:
    """The whole SVG text: the levels in rows, and below them the names of the colours."""
    frame = frame_of([point for level in levels for point in level.points], view_of(options))
    drawings = [drawing(levels[: number + 1], frame, options) for number in range(len(levels))]
    there: set[str] = {kind for level in levels for kind, _ in level.faces}
    below = legend([KINDS[kind] for kind in "slr" if kind in there] + [BEFORE])
    return page(drawings, options.columns, below=below)


def arguments() -> argparse.Namespace:
    parser = parser_of("Draws the sparse levels of a mesh side by side as one SVG picture.", 360)
    add_columns(parser)
    parser.add_argument("sparse", nargs="?", default="-", help="the text of `far sparse`; - is standard input (the default)")
    return parsed(parser)


def main() -> None:
    options = arguments()
    write_lines(picture(read_levels(read_bytes(options.sparse).decode(), options.up), options), options.output)


if __name__ == "__main__":
    main()
