#!/usr/bin/env python3
"""Writes the larger meshes of examples/: the dog, the arm in two poses, and the torus of 1,024 quads; and moves of the dog.
All meshes are closed, and all is written with whole numbers, or with decimals that are exact. Run it again after a change:
the files come out the same, byte for byte.

    tools/make_examples.py
"""

from __future__ import annotations

from decimal import Decimal
from fractions import Fraction
from itertools import product
from typing import Iterable, NamedTuple

from mesh_makers import Cell, surface, torus
from paths import TOP

EXAMPLES = TOP / "examples"


def decimals(point: Iterable) -> tuple[Decimal, ...]:
    """Fractions as decimals, which are exact where the denominators have no factors but 2 and 5."""
    return tuple(Decimal(Fraction(value).numerator) / Fraction(value).denominator for value in point)


def write_mesh(name: str, points: Iterable[Iterable], faces: Iterable[Iterable[int]], *comments: str) -> None:
    lines = [f"# {comment}" for comment in comments]
    lines += ["v " + " ".join(map(str, point)) for point in points]
    lines += ["f " + " ".join(str(vertex + 1) for vertex in face) for face in faces]
    (EXAMPLES / name).write_text("".join(line + "\n" for line in lines))
    print(f"{name}: {len(points)} points, {len(faces)} faces")


# The dog: unit cubes, of which the outer faces are kept. x runs to its nose, y to its left, z up.

BLOCKS = {
    "body": (range(2, 9), range(0, 4), range(3, 6)),
    "hind legs": (range(2, 4), (0, 3), range(0, 3)),
    "fore legs": (range(7, 9), (0, 3), range(0, 3)),
    "neck": (range(7, 9), range(1, 3), range(6, 7)),
    "head": (range(7, 11), range(0, 4), range(7, 10)),
    "muzzle": (range(11, 13), range(1, 3), range(7, 9)),
    "ears": (range(8, 9), (0, 3), range(10, 12)),
    "tail": (range(1, 2), range(1, 3), range(5, 6)),
    "tip of the tail": (range(0, 2), range(1, 3), range(6, 9)),
}

def dog() -> tuple[list[Cell], list[tuple[int, ...]]]:
    return surface({cube for block in BLOCKS.values() for cube in product(*block)})


# The dog's moves: in each frame some parts are turned, one way or the other, and all others are as in the mesh.


class Part(NamedTuple):
    """The points in a box, which turn in the plane of two axes about a place there."""

    least: tuple
    greatest: tuple
    axes: tuple
    still: tuple

    def holds(self, point: Cell) -> bool:
        return all(low <= value <= high for low, value, high in zip(self.least, point, self.greatest))

    def turned(self, point: Cell, way: int) -> list:
        """Where a point is then. The cosine of the angle is 4/5, and its sine 3/5."""
        (a, b), place, cosine, sine = self.axes, list(point), Fraction(4, 5), Fraction(3 * way, 5)
        along, up = point[a] - self.still[0], point[b] - self.still[1]
        place[a], place[b] = self.still[0] + cosine * along - sine * up, self.still[1] + sine * along + cosine * up
        return place


TAIL = Part((0, 0, 7), (2, 4, 9), (1, 2), (2, 6))
RIGHT_EAR, LEFT_EAR = Part((8, 0, 11), (9, 1, 12), (1, 2), (0, 10)), Part((8, 3, 11), (9, 4, 12), (1, 2), (4, 10))
HEAD = Part((7, 0, 7), (13, 4, 12), (0, 1), (8, 2))
FORE_LEG = Part((7, 0, 0), (9, 1, 2), (0, 2), (8, 3))
FRAMES = {
    "the tail to the right": [(TAIL, 1)],
    "the tail to the left": [(TAIL, -1)],
    "the tail back, and the head to the right": [(HEAD, -1)],
    "the ears apart": [(RIGHT_EAR, 1), (LEFT_EAR, -1), (HEAD, -1)],
    "the ears back": [(HEAD, -1)],
    "a fore leg up": [(FORE_LEG, 1), (HEAD, -1)],
    "the fore leg back": [(HEAD, -1)],
    "the head back": [],
}


def posed(point: Cell, turns: list[tuple[Part, int]]) -> tuple[Decimal, ...]:
    """Where a point of the dog is in a frame."""
    place = point
    for part, way in turns:
        if part.holds(point):
            place = part.turned(place, way)
    return decimals(place)


def write_moves(name: str, points: list, frames: dict[str, list[tuple[Part, int]]], comment: str) -> None:
    lines, now = [f"# {comment}", "frames"], points
    for words, turns in frames.items():
        before, now = now, [posed(point, turns) for point in points]
        lines.append(f"# {words}")
        pairs = enumerate(zip(before, now))
        lines += [f"move {number} {' '.join(map(str, new))}" for number, (old, new) in pairs if old != new]
        lines.append("go")
    (EXAMPLES / name).write_text("".join(line + "\n" for line in lines))
    print(f"{name}: {len(frames)} frames")


# The arm: a row of unit cubes along x with a hand at its end, and the same faces with the arm bent up at the elbow.

ARM = {(x, 0, 0) for x in range(7)} | {(5, 0, 1), (5, 1, 0), (5, -1, 0)}
ELBOW = 3, Fraction(1, 2)  # x and z of its axis
HALF_TURN = Fraction(4, 5), Fraction(3, 5)  # cosine and sine of half the angle
TURN = Fraction(7, 25), Fraction(24, 25)


def bent(point: Cell) -> tuple:
    """Where a point of the arm is when it is bent: what is before the elbow stays, and that at it turns half way."""
    x, y, z = point
    if x < ELBOW[0]:
        return point
    (cosine, sine), (along, up) = (HALF_TURN if x == ELBOW[0] else TURN), (x - ELBOW[0], z - ELBOW[1])
    return decimals((ELBOW[0] + cosine * along - sine * up, y, ELBOW[1] + sine * along + cosine * up))


if __name__ == "__main__":
    write_mesh("dog.obj", *dog())
    write_moves("dog_moves.txt", dog()[0], FRAMES, "Moves of dog.obj for far frames, with up to two decimals.")
    arm, faces = surface(ARM)
    write_mesh("arm_straight.obj", arm, faces, "An arm, stretched out. arm_bent.obj has the same faces.")
    write_mesh("arm_bent.obj", [bent(point) for point in arm], faces, "The arm of arm_straight.obj, bent at the elbow.")
    write_mesh("grid1024.obj", *torus(32, 32, 3000, 1200))
