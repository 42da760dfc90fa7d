#!/usr/bin/env python3
"""Draws OBJ meshes side by side as one SVG picture.

It reads the texts that `far` reads and writes: `v`, `vt`, `f` and `t` lines. Faces are shaded by the light that falls on them.
The nearest are drawn last. Blue is the front of a face, and sand its back. A closed mesh without holes shows fronts only.
Orange lines are edges that a crease tag names, the wider the sharper. Orange dots are sharp points, and green dots are the
points that `--dots` counts. Thick dark lines are edges of one face. Holes are not filled. Each mesh has its own scale, but
for `--one-scale` and `--cage`. A cage is black, and dashed where it looks away.

`--smooth` shades by the normals of points. The shading breaks at creases, and where the normals of two faces are more than 53
degrees apart. A cage, and each mesh that `--flat` names, are still shaded face by face.

    tools/picture.py examples/cube.obj > cube.svg
    ./far refine depth=3 tags=yes < examples/creased_cube.obj | tools/picture.py --cage --smooth examples/creased_cube.obj -
    ./far refine depth=3 < examples/seamed_cube.obj | tools/picture.py --cage --texture examples/seamed_cube.obj -

The same meshes and options give the same bytes. The status is 0. It is 2 where the options are wrong, and 1 with a line
where a text is no OBJ mesh.
"""

from __future__ import annotations

import argparse
import sys
from typing import Iterator, NamedTuple

from picture_mesh import Edge, Mesh, charts, plain_mesh, read_mesh, seams
from picture_page import EDGE, Drawing, add_columns, box_of, line_width, page, parsed, parser_of, path, read_bytes, view_of, write_lines
from picture_shade import BACK, FRONT, Paints, colour_of, corner_normals, facets_of
from picture_view import Frame, Place, Seen, Side, Vector, View, frame_of, seen_from, shown_sides
from reference.level import Faces, sides, unordered
from reference.obj import Fault

COVER = 0.7  # how wide the rim is by which a facet covers the gap to the next
SHARP, BOUNDARY, SEAM, CAGE, DOT = "#e8590c", "#16263d", "#a61e8c", "#1b1f27", "#2b8a3e"


class Mark(NamedTuple):
    """A line along an edge, or a dot at a point: both ends are the same then. It comes right after the last face there."""

    ends: Edge
    colour: str
    width: float


class Style(NamedTuple):
    """How a mesh is drawn: whether smoothly, how wide its edges are, whether seams are marked, and how many points are."""

    smooth: bool
    line: float | None
    seams: bool
    dots: int


# What is marked


def line_of_sharpness(sharpness: float) -> tuple[str, float]:
    """The colour and the width of a sharp edge's line."""
    return SHARP, 1.2 + 0.8 * min(sharpness, 3.5)


def marked_edges(mesh: Mesh, style: Style) -> dict[Edge, tuple[str, float]]:
    """The edges that are drawn as lines of their own, each with the colour and the width of its line."""
    marks = {edge: (SEAM, 3.0) for edge in seams(mesh)} if style.seams else {}
    marks.update((edge, line_of_sharpness(value)) for edge, value in mesh.creases.items())
    marks.update((unordered(edge), (BOUNDARY, 2.0)) for edge in Faces(mesh.faces).boundary())
    return marks


def marks_of(mesh: Mesh, style: Style) -> Iterator[Mark]:
    for edge, (colour, width) in marked_edges(mesh, style).items():
        yield Mark(edge, colour, width)
    for point, value in mesh.sharp_points.items():
        colour, width = line_of_sharpness(value)
        yield Mark((point, point), colour, width + 4)
    yield from (Mark((point, point), DOT, 5.0) for point in range(style.dots))


def marks_in_order(mesh: Mesh, order: list[int], style: Style) -> list[list[Mark]]:
    """Of each of these faces the marks that come right after it: it is the last of the faces at their edge or point. Where
    no faces have outlines, it is the last of those at an end of the edge, so that none of them covers a part of the line."""
    last: dict[Edge, int] = {}
    for place, number in enumerate(order):
        last.update(((vertex, vertex), place) for vertex in mesh.faces[number])
        last.update((unordered(side), place) for side in sides(mesh.faces[number]))
    after: list[list[Mark]] = [[] for _ in order]
    for mark in marks_of(mesh, style):
        if mark.ends in last:
            places = [last[end, end] for end in mark.ends] if style.smooth else [last[mark.ends]]
            after[max(places)].append(mark)
    return after


def mark_line(mark: Mark, places: list[Place]) -> str:
    return f'<path stroke="{mark.colour}" stroke-width="{mark.width:.1f}" d="{path(places[end] for end in mark.ends)}"/>'


# Faces


class Shader:
    """Paints the faces of a mesh."""

    def __init__(self, mesh: Mesh, seen: Seen, style: Style, paints: Paints):
        self.mesh, self.seen, self.style, self.paints = mesh, seen, style, paints
        self.normals = corner_normals(mesh, seen.points) if style.smooth else None

    def face_lines(self, side: Side) -> Iterator[str]:
        """The lines of a face: only its outline where it is a hole, and else its fills."""
        face = self.mesh.faces[side.number]
        outline = path(self.seen.places[vertex] for vertex in face)
        if side.number in self.mesh.holes:
            yield f'<path fill="none" stroke-dasharray="2 3" d="{outline}z"/>'
        elif self.normals is None:
            yield f'<path fill="{colour_of(side)}" d="{outline}z"/>'
        else:
            yield from self.facet_lines(side, self.normals[side.number], outline)

    def facet_lines(self, side: Side, normals: list[Vector], outline: str) -> Iterator[str]:
        """The lines of the facets of a face, each of which covers its rim, or those of one facet and its outline."""
        facets = list(facets_of(self.mesh.faces[side.number], side, normals, self.seen))
        fills = [self.paints.fill_of(facet, FRONT if side.is_front else BACK) for facet in facets]
        if self.style.line and len(facets) == 1:
            yield f'<path fill="{fills[0]}" d="{outline}z"/>'
            return
        rim = f' stroke-width="{COVER}"' if self.style.line else ""
        yield from (f'<path fill="{fill}" stroke="{fill}"{rim} d="{path(facet.places)}z"/>' for fill, facet in zip(fills, facets))
        if self.style.line:
            yield f'<path fill="none" d="{outline}z"/>'


def surface(mesh: Mesh, seen: Seen, style: Style, paints: Paints) -> Iterator[str]:
    """The lines of a mesh: its faces, the farthest first, each with the marks that come after it."""
    shown, shader = shown_sides(mesh, seen), Shader(mesh, seen, style, paints)
    for side, marks in zip(shown, marks_in_order(mesh, [side.number for side in shown], style)):
        yield from shader.face_lines(side)
        yield from (mark_line(mark, seen.places) for mark in marks)


# Cages


def cage_edges(mesh: Mesh, seen: Seen) -> tuple[list[list[Place]], list[list[Place]]]:
    """The edges of a cage: those that it hides, where it is closed, and the others."""
    front = shown_sides(plain_mesh(mesh.points, mesh.faces), seen)
    near = {unordered(edge) for side in front for edge in sides(mesh.faces[side.number])}
    edges = [(unordered(edge) in near, [seen.places[end] for end in edge]) for edge in Faces(mesh.faces).edges]
    return [ends for is_near, ends in edges if not is_near], [ends for is_near, ends in edges if is_near]


def wire(edges: list[list[Place]], style: str) -> Iterator[str]:
    """The lines of edges of a cage, with a dot at each end."""
    if edges:
        yield f'<path fill="none" stroke="{CAGE}" {style} d="{"".join(map(path, edges))}"/>'
    for x, y in sorted({end for ends in edges for end in ends}):
        yield f'<circle cx="{x:.1f}" cy="{y:.1f}" r="2" fill="{CAGE}" stroke="none"/>'


# Drawings


def frames_of(meshes: list[Mesh], view: View, one_scale: bool) -> list[Frame]:
    """The frame of each mesh: its own, or one that holds them all."""
    every = [mesh.points for mesh in meshes]
    if one_scale:
        return [frame_of([point for points in every for point in points], view)] * len(meshes)
    return [frame_of(points, view) for points in every]


def drawing(mesh: Mesh, cage: list[Mesh], frame: Frame, style: Style, paints: Paints) -> Drawing:
    """The drawing of a mesh, in a cage where there is one."""
    seen, cages = seen_from(frame, mesh.points), [seen_from(frame, it.points) for it in cage]
    hidden, near = cage_edges(cage[0], cages[0]) if cage else ([], [])
    width = COVER if style.smooth and not style.line else line_width(style.line, len(mesh.faces))
    lines = [f'<g stroke="{EDGE}" stroke-width="{width:.2f}" stroke-linejoin="round" stroke-linecap="round">']
    lines += wire(hidden, 'stroke-width="1" stroke-dasharray="3 3"')
    lines += surface(mesh, seen, style, paints)
    lines += [*wire(near, 'stroke-width="1.2"'), "</g>"]
    places = seen.places_of(mesh.faces) + [place for it in cages for place in it.places_of(cage[0].faces)]
    return Drawing(box_of(places or [(0.0, 0.0)]), lines, "")


def style_of(number: int, options: argparse.Namespace) -> Style:
    """The style of the mesh with this number, from 0."""
    is_flat = number + 1 in options.flat or (options.cage and number == 0)
    return Style(options.smooth and not is_flat, options.line, options.seams, options.dots)


def picture(meshes: list[Mesh], captions: list[str], options: argparse.Namespace) -> Iterator[str]:
    """The whole SVG text."""
    frames, paints = frames_of(meshes, view_of(options), options.one_scale), Paints()
    drawings = []
    for number, (mesh, caption, frame) in enumerate(zip(meshes, captions, frames)):
        cage = meshes[:1] if options.cage and number else []
        made = drawing(mesh, cage, frame, style_of(number, options), paints)
        drawings.append(made._replace(caption=caption))
    head = ["<defs>", *paints.lines, "</defs>"] if paints.lines else []
    return page(drawings, options.columns, options.one_scale, head)


def arguments() -> argparse.Namespace:
    parser = parser_of("Draws OBJ meshes side by side as one SVG picture.", 360)
    add_columns(parser)
    parser.add_argument("meshes", nargs="*", default=["-"], help="OBJ files; - is standard input (the default)")
    parser.add_argument("--smooth", action="store_true", help="shade by the normals of points, and draw no edges without --line")
    parser.add_argument("--flat", type=int, action="append", default=[], help="under --smooth a mesh to shade face by face, from 1")
    parser.add_argument("--one-scale", action="store_true", help="draw all meshes at one scale about one centre")
    parser.add_argument("--cage", action="store_true", help="draw the first mesh as a wire over each other: one scale")
    parser.add_argument("--dots", type=int, default=0, help="how many of the first points of each mesh to mark with dots")
    parser.add_argument("--seams", action="store_true", help="mark the edges at which the texture is cut")
    parser.add_argument("--texture", action="store_true", help="draw the charts of the texture, in their plane")
    parser.add_argument("--caption", action="append", help="the words below a mesh, one option for each mesh")
    options = parsed(parser)
    options.one_scale = options.one_scale or options.cage
    if options.texture:
        options.turn, options.tilt, options.distance = 0, 90, 0
    return options


def main() -> int:
    options = arguments()
    meshes = []
    for name in options.meshes:
        try:
            meshes.append(read_mesh(read_bytes(name), "z" if options.texture else options.up))
        except Fault as fault:
            print(f"tools/picture.py: {name}: line {fault.line}: {fault.cause}", file=sys.stderr)
            return 1
    if options.texture:
        meshes = [charts(mesh) for mesh in meshes]
    word = "values" if options.texture else "points"
    captions = [f"{len(mesh.points)} {word}, {len(mesh.faces)} faces" for mesh in meshes]
    given = (options.caption or [])[: len(meshes)]
    write_lines(picture(meshes, given + captions[len(given) :], options), options.output)
    return 0


if __name__ == "__main__":
    sys.exit(main())
