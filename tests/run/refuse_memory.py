#!/usr/bin/env python3
"""Refuses the built program each of its allocations in turn: only one, and then it and all that come after it.

Each of these runs must end with status 11, the line `far: out of memory` and nothing on standard output, or as the run
does to which nothing is refused. That goes for `frames` too, which takes its memory before it answers a line. What ends
otherwise is printed, and the exit status is then 1. It is 2 where nothing could be tried.

It preloads a malloc of its own, `tests/run/refuse_memory.c`, and so needs a C compiler, and Linux with the GNU C library.
`rt try --fail-alloc N` refuses one allocation too, of a build for that run, in half a minute each.

    tests/run/refuse_memory.py --only stencils
"""

from __future__ import annotations

import argparse
import os
import shutil
import subprocess
import sys
import tempfile
from collections import Counter
from pathlib import Path
from typing import Iterator

from paths import PROGRAM, TOP

OUT_OF_MEMORY = 11, b"", b"far: out of memory\n"
LATER = 2**62

MOVES = b"""frames
move 0 -1 -1 2
go
move 7 1/2 0.5 -1
go
"""

TAGS = """t crease 3/2/0 0 1 3 3/2 7/2
t corner 1/1/0 6 10
t hole 1/0/0 2
t creasemethod 0/0/1 chaikin
"""

RING = b"t crease 5/1/0 0 1 3 2 0 10\n"


def example(name: str) -> bytes:
    return (TOP / "examples" / name).read_bytes()


def case(name: str) -> bytes:
    return (TOP / "cases" / name / "stdin").read_bytes()


def runs() -> Iterator[tuple[str, bytes]]:
    """Words and standard input: each command, both paths, texture, tags, moves, stored tables, and inputs that are refused."""
    cube, unfolded = example("cube.obj"), example("unfolded_cube.obj")
    tagged = cube + TAGS.encode()
    yield "refine depth=1", cube
    yield "refine depth=1 by=level", cube
    yield "refine depth=2 decimals=3 tags=yes", tagged
    yield "refine depth=2 by=level tags=yes", tagged
    yield "refine depth=1", unfolded
    yield "refine depth=1 by=level uv=corners", unfolded
    yield "stencils depth=1", cube
    yield "frames depth=1 scale=1", cube + MOVES
    yield "levels depth=1", cube
    yield "sparse depth=2", tagged
    yield "sparse depth=1 select=all", unfolded
    yield "sparse depth=2 uv=smooth", case("sparse-texture/seam-beside-a-crease")
    yield "limit depth=2", cube + RING
    yield "limit depth=1 decimals=2", tagged
    yield "patch depth=2 face=2 grid=2", cube
    yield "patch depth=1 face=0 grid=2", tagged
    yield "map depth=2 face=0 grid=2", tagged
    yield "map depth=2 face=2 grid=2", tagged
    yield "verify depth=1", case("verify/cube-at-depth-one")
    yield "apply", case("apply/cube-at-depth-one")
    yield "gen seed=7 size=2 depth=1", b""
    yield "refine depth=1 tags=maybe", cube
    yield "refine depth=1", cube + b"v 1 2\n"
    yield "levels depth=1", cube + b"f 1 2 3\n"
    yield "frames depth=1", cube + MOVES
    yield "verify depth=1", case("verify/row-more")
    yield "apply", case("apply/row-that-does-not-sum")
    yield "refine depth=10", cube


class Refuser:
    """Runs the program over the other malloc."""

    def __init__(self, program: Path, folder: Path):
        self.program, self.library, self.count = program, folder / "refuse.so", folder / "count"

    def build(self) -> bool:
        """Whether the other malloc could be made."""
        compiler = os.environ.get("CC") or shutil.which("cc")
        if not compiler:
            return False
        words = [compiler, "-shared", "-fPIC", "-O1", "-fno-builtin", "-o", self.library, TOP / "tests/run/refuse_memory.c"]
        return subprocess.run(words).returncode == 0

    def run(self, words: str, data: bytes, first: int, last: int) -> tuple[int, bytes, bytes]:
        """How the run ends to which these calls are refused: its status, and what is written on both outputs."""
        names = {"LD_PRELOAD": self.library, "REFUSE": f"{first} {last}", "REFUSE_COUNT": self.count}
        command, names = [self.program, *words.split()], {**os.environ, **names}
        done = subprocess.run(command, input=data, capture_output=True, env=names)
        return done.returncode, done.stdout, done.stderr

    def calls(self, words: str, data: bytes) -> tuple[int, tuple[int, bytes, bytes]]:
        """How many calls the run makes to which nothing is refused, and how it ends."""
        self.count.unlink(missing_ok=True)
        answer = self.run(words, data, 0, 0)
        return int(self.count.read_text()), answer


def compare(refuser: Refuser, words: str, data: bytes) -> Counter:
    """Refuses each call of a run, by itself and with all later ones; counts the ends, and prints the wrong ones."""
    calls, own = refuser.calls(words, data)
    ends = Counter()
    for call in range(1, calls + 1):
        for last in (call, LATER):
            answer = refuser.run(words, data, call, last)
            end = "out of memory" if answer == OUT_OF_MEMORY else "own answer" if answer == own else "wrong"
            ends[end] += 1
            if end == "wrong":
                print(f"{words}: call {call} refused, {'only that' if last == call else 'and all after it'}: {answer}")
    print(f"{words}, status {own[0]}: {calls} allocations; {dict(sorted(ends.items()))}", flush=True)
    return ends


def main() -> int:
    parser = argparse.ArgumentParser(description="Refuses the built program each of its allocations in turn.")
    parser.add_argument("--program", type=Path, default=TOP / PROGRAM, help="the program to run")
    parser.add_argument("--only", default="", metavar="TEXT", help="only the runs whose words have this text")
    options = parser.parse_args()
    ends = Counter()
    with tempfile.TemporaryDirectory() as folder:
        refuser = Refuser(options.program.resolve(), Path(folder))
        if not refuser.build():
            print("the other malloc cannot be made: there is no C compiler, or it fails", file=sys.stderr)
            return 2
        for words, data in runs():
            if options.only in words:
                ends += compare(refuser, words, data)
    print(f"{sum(ends.values())} refusals tried; {dict(sorted(ends.items()))}")
    return 2 if not ends else 1 if ends["wrong"] else 0


if __name__ == "__main__":
    sys.exit(main())
