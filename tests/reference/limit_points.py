"""Compares the limit points of two levels of a mesh, by two answers of one program.

A point of a level keeps its number in all later levels, and its limit point stays where it is. So the first lines `v` of
`far limit` at a greater depth are all lines `v` at a lesser one. `tests/random/compare_random.py` asks that of random meshes.
"""

from __future__ import annotations

from pathlib import Path
from typing import NamedTuple

from reference.outcomes import answer_of

EARLY, LATE = 1, 3
# With these a level may be refused that comes after one that is taken: it has too many entries, or its numbers overflow.
REFUSED_LATER = (7, 8)


class Limits(NamedTuple):
    """How the program ends, and the lines `v` that it writes."""

    status: int
    points: list[bytes]


def limits_at(program: Path, depth: int, data: bytes) -> Limits:
    status, text = answer_of(program, ["limit", f"depth={depth}"], data)
    return Limits(status, [line for line in text.split(b"\n") if line.startswith(b"v ")])


def fault_of(early: Limits, late: Limits) -> str:
    """What is wrong with the limit points of a later level, where those of an earlier one were written; nothing if none."""
    if late.status:
        return "" if late.status in REFUSED_LATER else f"depth {LATE} ends with status {late.status}"
    pairs = list(zip(early.points, late.points))
    if len(pairs) < len(early.points):
        return f"depth {LATE} has fewer points than depth {EARLY}"
    moved = next((point for point, (before, after) in enumerate(pairs) if before != after), None)
    return "" if moved is None else f"point {moved} is at {pairs[moved][0]} and then at {pairs[moved][1]}"


def limits_stay(program: Path, meshes: list[bytes]) -> bool:
    """Whether the limit points of the earlier level are those of the later one too; prints which are not."""
    count = points = 0
    for data in meshes:
        early, late = (limits_at(program, depth, data) for depth in (EARLY, LATE))
        fault = "" if early.status else fault_of(early, late)
        if fault:
            print(f"{data!r}\n  {fault}")
            return False
        if not early.status and not late.status:
            count, points = count + 1, points + len(early.points)
    print(f"{count} of {len(meshes)} meshes have {points} limit points of level {EARLY} at level {LATE} too; others are refused")
    return True
