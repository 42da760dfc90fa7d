"""What tests share: meshes, and the answers of the program as numbers."""

from __future__ import annotations

import os
import subprocess
import sys
from fractions import Fraction
from math import cos, pi, sin
from pathlib import Path
from typing import Any, Sequence

import drillolive

TOP = Path(__file__).resolve().parents[3]
EXAMPLES = TOP / "examples"
PACKAGE = Path(drillolive.__file__).resolve().parent.parent

CUBE_POINTS = [(x, y, z) for z in (-1, 1) for y in (-1, 1) for x in (-1, 1)]
CUBE_FACES = [(0, 2, 3, 1), (4, 5, 7, 6), (0, 1, 5, 4), (2, 6, 7, 3), (0, 4, 6, 2), (1, 3, 7, 5)]

Point = Sequence[float]


def example(name: str) -> bytes:
    """Returns the OBJ text of an example."""
    return (EXAMPLES / f"{name}.obj").read_bytes()


def is_mesh(text: bytes) -> bool:
    """Returns whether OBJ text is a manifold mesh that can be refined."""
    return drillolive.run(["refine", "depth=0"], text).status == 0


def meshes() -> list[str]:
    """Returns the names of the examples that are small meshes."""
    names = sorted(path.stem for path in EXAMPLES.glob("*.obj") if path.stat().st_size < 20000)
    return [name for name in names if is_mesh(example(name))]


def cube(**options: Any) -> drillolive.Mesh:
    """Returns a cube of edge 2 around the origin."""
    return drillolive.Mesh(CUBE_POINTS, CUBE_FACES, **options)


def torus(around: int, across: int) -> tuple[list[tuple[float, float, float]], list[tuple[int, int, int, int]]]:
    """Returns the points and the quads of a torus of so many quads around and across."""
    points = []
    for i in range(around):
        for j in range(across):
            wide = 3 + cos(2 * pi * j / across)
            angle = 2 * pi * i / around
            points.append((wide * cos(angle), wide * sin(angle), sin(2 * pi * j / across)))
    number = [[i % around * across + j % across for j in range(across + 1)] for i in range(around + 1)]
    quads = [
        (number[i][j], number[i + 1][j], number[i + 1][j + 1], number[i][j + 1])
        for i in range(around)
        for j in range(across)
    ]
    return points, quads


def obj_text(points: Sequence[Point], faces: Sequence[Sequence[int]]) -> bytes:
    """Returns the OBJ text of a mesh."""
    lines = [f"v {x!r} {y!r} {z!r}\n" for x, y, z in points]
    lines += ["f " + " ".join(str(corner + 1) for corner in face) + "\n" for face in faces]
    return "".join(lines).encode()


def fractions_of(text: str, keyword: str = "v") -> list[tuple[Fraction, ...]]:
    """Returns the numbers of the lines of a text that begin with a word."""
    words = (line.split() for line in text.splitlines())
    return [tuple(map(Fraction, rest)) for first, *rest in words if first == keyword]


def listed(rows: Any) -> list[Any]:
    """Returns an array, or a list, as a list of numbers or of tuples."""
    held = rows.tolist() if hasattr(rows, "tolist") else list(rows)
    return [tuple(row) if isinstance(row, (list, tuple)) else row for row in held]


def nearest(rows: Sequence[Sequence[Fraction]]) -> list[tuple[float, ...]]:
    """Returns rows of fractions as the nearest doubles."""
    return [tuple(map(float, row)) for row in rows]


def run_python(code: str, text: str = "", **variables: str) -> subprocess.CompletedProcess[str]:
    """Runs code in a new interpreter that finds the package, with a text on standard input."""
    environment = {**os.environ, "PYTHONPATH": str(PACKAGE), **variables}
    words = [sys.executable, "-c", code]
    return subprocess.run(words, env=environment, input=text, capture_output=True, text=True, timeout=120)
