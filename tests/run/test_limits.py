#!/usr/bin/env python3
"""Runs the built program at limits of its counts and one past them, on inputs that are too long for a case.

No expected answer comes from the program: the counts of a wheel, a face and a tube were worked out by hand. The last line is
`the limits: N runs end as wanted`, and the exit status 0. The status is 1 where a run ends otherwise, which is printed, and 2
where there is no program.

    tests/run/test_limits.py --program .far/far_cli
"""

from __future__ import annotations

import argparse
import subprocess
import sys
from collections import Counter
from pathlib import Path
from typing import Iterator, NamedTuple

from paths import PROGRAM, TOP

POINT = "v 0 0 0\n"
MOST_POINTS, MOST_CORNERS = 2**20, 2**16


class Run(NamedTuple):
    """Words and an input; the status, the line on standard error, and what `seen` shows of the standard output."""

    words: str
    text: str
    status: int
    fault: str
    output: str


def wheel(spokes: int) -> str:
    """A hub, and so many points about it. Each triangle joins the hub and two neighbours."""
    return POINT + POINT + (spokes - 1) * f"{POINT}f 1 -2 -1\n" + "f 1 -1 2\n"


def face(corners: int) -> str:
    """One face of so many corners."""
    return corners * POINT + "f" + "".join(f" {place}" for place in range(1, corners + 1))


def tube(points: int) -> str:
    """A tube of triangles. Each point has two with the point before it and those one turn before, at five points a turn."""
    return 6 * POINT + points * f"{POINT}f -1 -6 -2\nf -2 -6 -7\n"


def runs() -> Iterator[Run]:
    levels = "levels depth=0"
    counts = "points 65537 edges 131072 faces 65536 euler 1 boundary 65536 holes 0 sharp 0 extraordinary 1"
    yield Run(levels, wheel(MOST_CORNERS), 0, "", f"level 0 {counts}\n")
    yield Run(levels, wheel(MOST_CORNERS + 1), 7, "far: vertex 0 has 65537 edges\n", "")
    yield Run("refine depth=2", wheel(5000), 7, "far: level 2 has too many entries\n", "")
    # Level by level there is no limit on entries. After two steps a wheel of n triangles has 14 n + 1 points and 12 n faces.
    yield Run("refine depth=2 by=level", wheel(5000), 0, "", "70001 v, 60000 f")
    counts = "points 65536 edges 65536 faces 1 euler 1 boundary 65536 holes 0 sharp 0 extraordinary 0"
    yield Run(levels, face(MOST_CORNERS), 0, "", f"level 0 {counts}\n")
    yield Run(levels, face(MOST_CORNERS + 1), 7, "far: face 0 has 65537 corners\n", "")
    yield Run(levels, (MOST_POINTS + 1) * POINT, 7, "far: too many points: 1048577\n", "")
    yield Run(levels, tube(MOST_POINTS // 2 + 1), 7, "far: too many faces: 1048578\n", "")
    yield Run(levels, MOST_POINTS * "\n" + "x", 5, "far: line 1048577: unknown keyword\n", "")


def seen(output: str) -> str:
    """An output of one line; or the first words of the lines, and how often each stands there."""
    lines = output.splitlines()
    if len(lines) < 2:
        return output
    return ", ".join(f"{count} {word}" for word, count in Counter(line.split(" ")[0] for line in lines).items())


def differences(program: Path) -> list[str]:
    """Of each run that does not end as wanted how it ends; of the others an empty line."""
    lines = []
    for words, text, *wanted in runs():
        run = subprocess.run([program, *words.split()], input=text, capture_output=True, text=True)
        given = [run.returncode, run.stderr, seen(run.stdout)]
        lines.append("" if given == wanted else f"{words}, {len(text)} bytes: wanted {wanted}, got {given}")
    return lines


def main() -> int:
    parser = argparse.ArgumentParser(description="Runs the built program at limits of its counts.")
    parser.add_argument("--program", type=Path, default=TOP / PROGRAM, help="the program to run")
    program = parser.parse_args().program
    if not program.exists():
        print(f"no program {program}: `./far --build` or `rt ci` builds it", file=sys.stderr)
        return 2
    lines = differences(program.resolve())
    faults = list(filter(None, lines))
    print("\n".join(faults) if faults else f"the limits: {len(lines)} runs end as wanted")
    return 1 if faults else 0


if __name__ == "__main__":
    sys.exit(main())
