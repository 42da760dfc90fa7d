#!/usr/bin/env python3
"""Makes an OBJ mesh of patches: their places, and the quads between these.

It reads the text of `far patch`, or several one after another, on standard input:

    ./far patch depth=0 face=4 grid=8 < examples/canopy.obj | tests/reference/patch_mesh.py > patch.obj

A grid of M steps has M + 1 places in each row, and M times M quads, which turn as the face does.
"""

from __future__ import annotations

import sys
from typing import Iterable, Iterator


def quads(first: int, steps: int) -> Iterator[tuple[int, int, int, int]]:
    """The quads of a grid whose first place has this number, by their corners from 1."""
    across = steps + 1
    for start in (first + row * across + column for row in range(steps) for column in range(steps)):
        yield start + 1, start + 2, start + across + 2, start + across + 1


def mesh_lines(lines: Iterable[str]) -> Iterator[str]:
    """The lines of the points of all patches, and of their quads."""
    points, faces = [], []
    for keyword, *words in map(str.split, lines):
        if keyword == "patch":
            faces += quads(len(points), int(words[3]))
        else:
            points.append(words[2:])
    yield from (" ".join(["v", *point]) for point in points)
    yield from (" ".join(["f", *map(str, face)]) for face in faces)


if __name__ == "__main__":
    for line in mesh_lines(sys.stdin):
        print(line)
