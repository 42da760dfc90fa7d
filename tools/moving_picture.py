#!/usr/bin/env python3
"""Draws a mesh whose points are moved as one SVG picture that moves: a frame for each line `go`.

It reads four texts: a mesh; its lines `move` and `go`; a level of the mesh, by `far refine`; and what `far frames` answers
at that depth. The points of the level are kept, and those of each answer put in their places. Faces are drawn as
`tools/picture.py` draws them, without tags, and are orange where the answer has one of their points. Black dots
are the points of the mesh that were moved, and the black wire is its edges there.

    tools/moving_picture.py examples/dog.obj examples/dog_moves.txt <(./far refine depth=1 < examples/dog.obj) \\
        <(cat examples/dog.obj examples/dog_moves.txt | ./far frames depth=1 scale=2) > dog.svg

What looks alike in several frames is written once. Where pictures do not move, or are not to move, they show the first frame.
The same texts and options give the same bytes. The status is 0. It is 2 where the options are wrong, and 1 where the texts do
not fit each other, or have another form.
"""

from __future__ import annotations

import argparse
import sys
from fractions import Fraction
from typing import Iterable, Iterator, NamedTuple

from picture import CAGE
from picture_mesh import Mesh, Point, read_mesh, upright
from picture_page import EDGE, STYLE, Box, Drawing, box_of, line_width, page, parsed, parser_of, read_bytes, view_of, write_lines
from picture_shade import Colours, colour_of
from picture_view import Frame, Place, Seen, Side, between, frame_of, length_of, seen_from, shown_sides
from reference.level import sides, unordered

CHANGED: Colours = ((178, 92, 38), (255, 200, 140), (255, 234, 208))
FACE, WIRE, KNOT = range(3)  # what is drawn, from the lowest
FINE = 10  # units of a path for a pixel
BELOW = 24  # pixels from the drawing down to its caption
Points = dict[int, Point]
Frames = frozenset[int]


# Frames


def read_moves(text: str, up: str) -> list[Points]:
    """Of each line `go` the points that were moved since the one before, by their numbers."""
    frames: list[Points] = []
    moved: Points = {}
    for line in text.splitlines():
        words = line.split("#", 1)[0].split()
        if words[:1] == ["move"]:
            moved[int(words[1])] = upright(tuple(map(Fraction, words[2:5])), up)
        elif words[:1] == ["go"]:
            frames.append(moved)
            moved = {}
    return frames


def read_answers(text: str, up: str) -> list[Points]:
    """Of each answer its points, by their numbers."""
    frames: list[Points] = []
    for keyword, *words in map(str.split, text.splitlines()):
        if keyword == "frame":
            frames.append({})
        else:
            frames[-1][int(words[0])] = upright(tuple(map(Fraction, words[1:4])), up)
    return frames


class Pose(NamedTuple):
    """A mesh in a frame, and its points that the frame puts in their places."""

    mesh: Mesh
    changed: Points


def poses(mesh: Mesh, frames: list[Points]) -> Iterator[Pose]:
    """The mesh in each of its frames: all other points stay where they are."""
    points = dict(enumerate(mesh.points))
    for changed in frames:
        points.update(changed)
        yield Pose(mesh._replace(points=list(points.values())), changed)


# What is drawn


class Piece(NamedTuple):
    """A path, with the rectangle that it lies in. Pieces are drawn in ascending order."""

    nearness: float  # to the eye
    kind: int
    text: str
    box: Box

    def touches(self, other: "Piece") -> bool:
        left, upper, right, lower = self.box
        return left < other.box[2] and other.box[0] < right and upper < other.box[3] and other.box[1] < lower


def path_piece(kind: int, away: float, places: list[Place], style: str, end: str = "") -> Piece:
    """The path through places, in small units: the first, and how far each is from the one before."""
    fine = [tuple(round(FINE * value) for value in place) for place in places]
    steps = [b - a for one, next_one in zip(fine, fine[1:]) for a, b in zip(one, next_one)]
    line = "".join(f"{step}" if step < 0 or number == 0 else f" {step}" for number, step in enumerate(steps))
    text = f'<path {style} d="M{fine[0][0]} {fine[0][1]}{"l" if steps else ""}{line}{end}"/>'
    xs, ys = zip(*fine)
    return Piece(-away, kind, text, (min(xs), min(ys), max(xs), max(ys)))


def surface(pose: Pose, shown: list[Side], seen: Seen) -> Iterator[Piece]:
    """The faces of a level, those with a changed point in a colour of their own."""
    for side in shown:
        face = pose.mesh.faces[side.number]
        colours = None if pose.changed.keys().isdisjoint(face) else CHANGED
        places = [seen.places[vertex] for vertex in face]
        yield path_piece(FACE, side.away, places, f'fill="{colour_of(side, colours)}"', "z")


def wire(pose: Pose, shown: list[Side], seen: Seen) -> Iterator[Piece]:
    """The edges at moved points, and a dot at each such point. The wire lies around the faces that it shapes, so that an
    edge is taken to be nearer to the eye than its ends, by half its length."""
    faces = [pose.mesh.faces[side.number] for side in shown]
    edges = {unordered(edge) for face in faces for edge in sides(face) if not pose.changed.keys().isdisjoint(edge)}
    knots: dict[int, float] = {}
    for a, b in sorted(edges):
        length = length_of(between(seen.points[a], seen.points[b]))
        away = min(seen.away(a), seen.away(b)) - length / 2
        knots.update((end, min(knots.get(end, away), away)) for end in (a, b) if end in pose.changed)
        yield path_piece(WIRE, away, [seen.places[a], seen.places[b]], 'class="w"')
    for vertex, away in sorted(knots.items()):
        yield path_piece(KNOT, away, [seen.places[vertex]], 'class="k"', "h0")


# Runs


class Run:
    """Pieces that are seen in the same frames and drawn one after another."""

    def __init__(self, frames: Frames):
        self.frames = frames
        self.pieces: list[Piece] = []

    def is_below(self, piece: Piece, frames: Frames) -> bool:
        """Whether a piece of these frames covers something of the run."""
        return not self.frames.isdisjoint(frames) and any(map(piece.touches, self.pieces))


def runs_of(seen: dict[Piece, Frames]) -> list[Run]:
    """All pieces, the farthest first, in few runs: each joins one that was begun before if it covers nothing that lies
    between."""
    runs: list[Run] = []
    for piece, frames in sorted(seen.items()):
        joined = None
        for run in reversed(runs):
            if run.frames == frames:
                joined = run
            if joined or run.is_below(piece, frames):
                break
        if joined is None:
            joined = Run(frames)
            runs.append(joined)
        joined.pieces.append(piece)
    return runs


# Pictures


class Show:
    """Which frames are on show when: a class of style sheets for each set of frames that are not all."""

    def __init__(self, count: int, seconds: float):
        self.count, self.seconds = count, seconds
        self.names: dict[Frames, str] = {}

    def name(self, frames: Iterable[int]) -> str:
        return self.names.setdefault(frozenset(frames), f"f{len(self.names)}")

    def turns(self, frames: Frames) -> Iterator[str]:
        """Where these frames begin to be seen, and where they end, in per cent of all."""
        for number in range(self.count):
            if number == 0 or (number in frames) != (number - 1 in frames):
                yield f"{100 * number / self.count:g}%{{visibility:{'visible' if number in frames else 'hidden'}}}"

    def style(self) -> Iterator[str]:
        yield "<style>"
        yield f"g[class],text{{animation:{self.seconds * self.count:g}s step-end infinite}}"
        for frames, name in self.names.items():
            at_first = "" if 0 in frames else ";visibility:hidden"
            yield f".{name}{{animation-name:{name}{at_first}}}"
            yield f"@keyframes {name}{{{''.join(self.turns(frames))}}}"
        yield "@media(prefers-reduced-motion:reduce){g[class],text{animation:none}}"
        yield f".w{{stroke:{CAGE};stroke-width:{0.8 * FINE:g}}}.k{{stroke:{CAGE};stroke-width:{3.4 * FINE:g}}}"
        yield "</style>"


def drawn(runs: list[Run], show: Show) -> Iterator[str]:
    """The lines of all runs, in a group where a run is not seen in all frames."""
    for run in runs:
        always = len(run.frames) == show.count
        if not always:
            yield f'<g class="{show.name(run.frames)}">'
        yield from (piece.text for piece in run.pieces)
        if not always:
            yield "</g>"


def captions(cages: list[Pose], levels: list[Pose], show: Show, place: Place) -> Iterator[str]:
    """A line of words below each frame."""
    for number, (cage, level) in enumerate(zip(cages, levels)):
        moved, written = (f"{len(pose.changed):,} of {len(pose.mesh.points):,}" for pose in (cage, level))
        words = f"go {number + 1} of {show.count}: {moved} points moved, {written} written"
        where = f'x="{place[0]:.1f}" y="{place[1]:.1f}" text-anchor="middle" {STYLE}'
        yield f'<text class="{show.name([number])}" {where}>{words}</text>'


def pieces_seen(cages: list[Pose], levels: list[Pose], frame: Frame) -> dict[Piece, Frames]:
    """All pieces, each with the frames in which it is seen."""
    found: dict[Piece, set] = {}
    for number, poses_of_frame in enumerate(zip(cages, levels)):
        for pose, lines_of in zip(poses_of_frame, (wire, surface)):
            seen = seen_from(frame, pose.mesh.points)
            for piece in lines_of(pose, shown_sides(pose.mesh, seen), seen):
                found.setdefault(piece, set()).add(number)
    return {piece: frozenset(frames) for piece, frames in found.items()}


def picture(cages: list[Pose], levels: list[Pose], options: argparse.Namespace) -> Iterator[str]:
    """The whole SVG text."""
    frame = frame_of([point for pose in cages + levels for point in pose.mesh.points], view_of(options))
    show, pieces = Show(len(levels), options.seconds), pieces_seen(cages, levels, frame)
    left, upper, right, lower = (value / FINE for value in box_of(end for piece in pieces for end in (piece.box[:2], piece.box[2:])))
    width = FINE * line_width(options.line, len(levels[0].mesh.faces))
    look = f'stroke="{EDGE}" stroke-width="{width:.1f}" stroke-linejoin="round" stroke-linecap="round"'
    lines = [f'<g transform="scale({1 / FINE:g})" {look}>', *drawn(runs_of(pieces), show), "</g>"]
    lines += captions(cages, levels, show, ((left + right) / 2, lower + BELOW))
    return page([Drawing((left, upper, right, lower + BELOW), lines, "")], head=show.style())


def arguments() -> argparse.Namespace:
    parser = parser_of("Draws a mesh whose points are moved as one SVG picture that moves.", 460, 20)
    parser.add_argument("mesh", help="an OBJ file; - is standard input, of these four for one at most")
    parser.add_argument("moves", help="the lines `move` and `go`; others are passed over")
    parser.add_argument("level", help="what `far refine` writes of the mesh")
    parser.add_argument("frames", help="what `far frames` writes of the mesh and its moves, at the same depth")
    parser.add_argument("--seconds", type=float, default=1, help="how long each frame is seen (default 1)")
    return parsed(parser)


def main() -> None:
    options = arguments()
    cage, level = (read_mesh(read_bytes(name), options.up) for name in (options.mesh, options.level))
    moves = read_moves(read_bytes(options.moves).decode(), options.up)
    answers = read_answers(read_bytes(options.frames).decode(), options.up)
    if not answers or len(moves) != len(answers):
        sys.exit(f"there are {len(moves)} lines `go` and {len(answers)} answers, and not as many of both, or none")
    write_lines(picture(list(poses(cage, moves)), list(poses(level, answers)), options), options.output)


if __name__ == "__main__":
    main()
