"""A plain, slow reference of stencil tables, and of the sheets that the program makes by itself.

It is written from the definitions of `subdiv_model` (Support, TableText and Generator), with whole numbers, and shares
nothing with the program. `tests/reference/reference.py` answers `stencils` and `gen` through it.
"""

from __future__ import annotations

from dataclasses import dataclass
from fractions import Fraction
from math import lcm
from typing import Iterator

from reference.level import Level, accepted
from reference.mask import Mask, positions_of, stepped
from reference.obj import Face, Mesh


@dataclass
class Row:
    """The numerators of a point by its controls, and the denominator below them."""

    numerators: dict[int, int]
    denominator: int

    @property
    def controls(self) -> dict[int, int]:
        return self.numerators

    def value(self, points: list[Face]) -> tuple[Fraction, ...]:
        """The point that the row makes of these."""
        axes = zip(*(points[control] for control in self.numerators))
        sums = (sum(map(int.__mul__, self.numerators.values(), axis)) for axis in axes)
        return tuple(Fraction(total, self.denominator) for total in sums)


def composed(mask: Mask, rows: list[Row]) -> Row:
    """The row that a mask makes of those of its sources."""
    multiple, numerators = lcm(*(rows[source].denominator for source in mask.weights)), {}
    for source, weight in mask.weights.items():
        factor = weight * (multiple // rows[source].denominator)
        for control, numerator in rows[source].numerators.items():
            numerators[control] = numerators.get(control, 0) + factor * numerator
    return Row(dict(sorted(numerators.items())), mask.denominator * multiple)


def table(level: Level, obj: Mesh, depth: int) -> tuple[Level, list[Row]]:
    """The level after so many steps from level 0 of a mesh, and the rows of its points, or a Refusal."""
    rows = [Row({vertex: 1}, 1) for vertex in range(level.points)]
    return stepped(positions_of(obj, level), rows, depth, True, composed)


def entries(rows: list[Row]) -> int:
    return sum(len(row.numerators) for row in rows)


def row_line(row: Row) -> str:
    shares = "".join(f" {control} {numerator}" for control, numerator in row.numerators.items())
    return f"s {row.denominator}{shares}\n"


def table_text(obj: Mesh, depth: int) -> str:
    """The text of the table of a mesh that was read, or its Refusal."""
    _, rows = table(accepted(obj, depth), obj, depth)
    header = f"table controls {len(obj.points)} rows {len(rows)} entries {entries(rows)}\n"
    return header + "".join(map(row_line, rows))


# Sheets


def draws(seed: int) -> Iterator[int]:
    """Numbers from 0 to 6 without end."""
    state = seed % 2**31
    while True:
        state = (1103515245 * state + 12345) % 2**31
        yield state // 65536 % 7


def sheet(seed: int, size: int) -> Mesh:
    """A sheet of so many quads in rows and in columns, whose heights are drawn, and then the sharpness of each inner row
    of edges."""
    drawn, across = draws(seed), range(size + 1)
    points = [(10 * j, 10 * i, next(drawn)) for i in across for j in across]
    number = [[i * (size + 1) + j for j in across] for i in across]
    corners = ((0, 0), (0, 1), (1, 1), (1, 0))
    faces = [[number[i + down][j + right] for down, right in corners] for i in range(size) for j in range(size)]
    mesh = Mesh(points=points, faces=[tuple(face) for face in faces])
    for row in number[1:size]:
        sharpness = Fraction(next(drawn), 2)
        mesh.creases += [(pair, sharpness) for pair in zip(row, row[1:])]
    return mesh


def sheet_text(seed: int, size: int, depth: int) -> str:
    """The counts of a sheet and its table, and its last point, or its Refusal."""
    obj = sheet(seed, size)
    level, rows = table(accepted(obj, depth), obj, depth)
    denominator = max(row.denominator for row in rows)
    return (
        f"gen points {len(obj.points)} faces {len(obj.faces)}\n"
        f"level {depth} points {len(rows)} faces {len(level.mesh.faces)} entries {entries(rows)} den {denominator}\n"
        f"last {' '.join(map(str, rows[-1].value(obj.points)))}\n"
    )
