#!/usr/bin/env python3
"""Draws the smooth surface of a mesh as a shaded SVG picture.

Each face of the mesh has a grid of places, and each corner of a face that is no quad has one. `far map` gives the leaf of
each place. Where the leaf has a patch, `far patch` gives the point there, and the surface is blue. Any other leaf is drawn
between the limit points of its corners, which `far limit` gives, and the surface is sand. The program runs once for each
grid and for each leaf, so a mesh of some hundred faces takes a while.

    tools/shaded_picture.py examples/creased_cube.obj --depth 4 --grid 12 -o creased_cube.svg

The same mesh and options give the same bytes. The status is 0. It is 2 where the options are wrong, and 1 with the line of
the program where that refuses the mesh.
"""

from __future__ import annotations

import argparse
import subprocess
import sys
from fractions import Fraction
from functools import lru_cache
from pathlib import Path
from typing import Iterator, NamedTuple

from paths import TOP
from picture_mesh import Mesh, Point, is_closed, plain_mesh, read_mesh, upright
from picture_page import Drawing, box_of, page, parsed, parser_of, path, read_bytes, view_of, write_lines
from picture_shade import BACK, FRONT, Paints, corner_normals, facets_of
from picture_view import frame_of, seen_from, shown_sides
from reference.obj import Fault

NO_LIMIT, NO_PLACE = 9, 13
LAST_DEPTH = 6  # the last at which leaves and limit points are asked for


class Leaf(NamedTuple):
    """A leaf, with a place on it: its level, its number there, and how many steps of the grid the place is along."""

    level: int
    number: int
    s: int
    t: int


class Surface(NamedTuple):
    """The facets of a surface: their points, the four points of each, and whether it lies on a patch."""

    points: list[Point]
    faces: list[list[int]]
    on_patch: list[bool]


# What the program says


class Refused(Exception):
    """The line with which the program refuses a mesh."""


class Program:
    """The program with a mesh, and what it says of the surface on a grid."""

    def __init__(self, program: Path, text: bytes, depth: int, grid: int):
        self.program, self.text, self.depth, self.grid = program, text, depth, grid

    def run(self, allowed: int | None, *words: str) -> list[list[str]]:
        """The words of each line that is written; none where the status is allowed besides 0."""
        done = subprocess.run([self.program, *words], input=self.text, capture_output=True)
        if done.returncode not in (0, allowed):
            raise Refused(done.stderr.decode().strip())
        return [line.split() for line in done.stdout.decode().splitlines()]

    def leaves(self, face: int, corner: int) -> Iterator[tuple[tuple[int, int], Leaf]]:
        """The leaf of each place of a face with a corner."""
        options = [f"depth={self.depth}", f"face={face}", f"corner={corner}", f"grid={self.grid}"]
        for _, i, j, _, level, _, number, _, _, _, s, t in self.run(None, "map", *options):
            steps = (int(Fraction(part) * self.grid) for part in (s, t))
            yield (int(i), int(j)), Leaf(int(level), int(number), *steps)

    @lru_cache(maxsize=None)
    def patch(self, level: int, number: int) -> dict[tuple[int, int], Point]:
        """The points of a leaf by their places; none where it has no patch."""
        words = ["patch", f"depth={level}", f"face={number}", f"grid={self.grid}"]
        lines = self.run(NO_PLACE, *words)[1:]
        return {(int(i), int(j)): tuple(map(Fraction, point)) for _, i, j, *point in lines}

    @lru_cache(maxsize=None)
    def faces(self, level: int) -> list[list[int]]:
        """The corners of each face of a level."""
        lines = self.run(None, "refine", f"depth={level}", "tags=yes")
        return [[int(word.split("/")[0]) - 1 for word in words] for keyword, *words in lines if keyword == "f"]

    @lru_cache(maxsize=None)
    def limits(self) -> list[Point]:
        """The limit points of all levels to the depth: a point has the same number at later levels, and sharpness may have to
        end first."""
        for depth in range(max(self.depth, 1), LAST_DEPTH + 1):
            lines = self.run(NO_LIMIT, "limit", f"depth={depth}")
            if lines:
                return [tuple(map(Fraction, point)) for keyword, *point in lines if keyword == "v"]
        raise Refused(f"a point is a dart, or semi-sharp at level {LAST_DEPTH}")

    def between_limits(self, leaf: Leaf) -> Point:
        """The point of a place between the limit points of the corners of its leaf."""
        s, t = Fraction(leaf.s, self.grid), Fraction(leaf.t, self.grid)
        weights = [(1 - s) * (1 - t), s * (1 - t), s * t, (1 - s) * t]
        corners = [self.limits()[vertex] for vertex in self.faces(leaf.level)[leaf.number]]
        return tuple(sum(weight * part for weight, part in zip(weights, axis)) for axis in zip(*corners))

    def point(self, leaf: Leaf) -> tuple[Point, bool]:
        """The point of a place on its leaf, and whether it lies on a patch."""
        patch = self.patch(leaf.level, leaf.number)
        return (patch[leaf.s, leaf.t], True) if patch else (self.between_limits(leaf), False)


# Facets


def grids_of(mesh: Mesh) -> Iterator[tuple[int, int]]:
    """The faces that are no holes, each with the corners that have a grid."""
    for face, polygon in enumerate(mesh.faces):
        if face not in mesh.holes:
            yield from ((face, corner) for corner in ([0] if len(polygon) == 4 else range(len(polygon))))


def surface_of(program: Program, mesh: Mesh, up: str) -> Surface:
    """The facets of all grids, each four places that follow one another round it. Grids share the points at their rims."""
    numbers: dict[Point, int] = {}
    surface, grid = Surface([], [], []), program.grid
    for face, corner in grids_of(mesh):
        found = {place: program.point(leaf) for place, leaf in program.leaves(face, corner)}
        for i, j in ((i, j) for j in range(grid) for i in range(grid)):
            around = [found[place] for place in ((i, j), (i + 1, j), (i + 1, j + 1), (i, j + 1))]
            surface.faces.append([numbers.setdefault(point, len(numbers)) for point, _ in around])
            surface.on_patch.append(all(on_patch for _, on_patch in around))
    surface.points.extend(upright(point, up) for point in numbers)
    return surface


# Pictures


def picture(surface: Surface, holes: bool, options: argparse.Namespace) -> Iterator[str]:
    """The whole SVG text. A surface with holes shows both its sides."""
    seen = seen_from(frame_of(surface.points, view_of(options)), surface.points)
    mesh = plain_mesh(surface.points, surface.faces)
    normals, paints = corner_normals(mesh, seen.points), Paints()
    lines = ['<g stroke-width="0.7" stroke-linejoin="round">']
    for side in shown_sides(mesh._replace(holes={-1} if holes else set()), seen):
        colours = FRONT if surface.on_patch[side.number] else BACK
        for facet in facets_of(mesh.faces[side.number], side, normals[side.number], seen):
            fill = paints.fill_of(facet, colours)
            lines.append(f'<path fill="{fill}" stroke="{fill}" d="{path(facet.places)}z"/>')
    caption = f"{len(surface.faces)} facets, {sum(surface.on_patch)} of them on patches"
    drawing = Drawing(box_of(seen.places), [*lines, "</g>"], caption)
    return page([drawing], head=["<defs>", *paints.lines, "</defs>"])


def arguments() -> argparse.Namespace:
    parser = parser_of("Draws the smooth surface of a mesh as a shaded SVG picture.", 360)
    parser.add_argument("mesh", nargs="?", default="-", help="an OBJ file; - is standard input (the default)")
    parser.add_argument("--program", default=TOP / "far", help="the program to run")
    parser.add_argument("--depth", type=int, default=3, help="the depth of the leaves (default 3)")
    parser.add_argument("--grid", type=int, default=8, help="how many steps each grid has along a side (default 8)")
    options = parsed(parser)
    if not 1 <= options.grid <= 64:
        parser.error("a grid has from 1 to 64 steps")
    if not 0 <= options.depth <= LAST_DEPTH:
        parser.error(f"the depth is from 0 to {LAST_DEPTH}")
    return options


def main() -> int:
    options = arguments()
    data = read_bytes(options.mesh)
    try:
        mesh = read_mesh(data)
        surface = surface_of(Program(options.program, data, options.depth, options.grid), mesh, options.up)
    except Fault as fault:
        print(f"tools/shaded_picture.py: line {fault.line}: {fault.cause}", file=sys.stderr)
        return 1
    except Refused as refused:
        print(refused, file=sys.stderr)
        return 1
    write_lines(picture(surface, bool(mesh.holes) or not is_closed(mesh.faces), options), options.output)
    return 0


if __name__ == "__main__":
    sys.exit(main())
