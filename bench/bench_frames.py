"""Long sessions of `far frames`, for `bench/bench.py`: a mesh is read once, and then some of its points are moved, frame by
frame, through pipes.

A frame is timed from the first byte of its moves to the last byte of its answer, which is read and counted as it comes. A
moved point goes to where another one is in the mesh, so that its coordinates are no finer than those of the mesh."""

from __future__ import annotations

import os
import re
import subprocess
import time
from pathlib import Path
from typing import Iterator, NamedTuple, Sequence

from bench_meshes import Made, scattered

CHUNK = 2**16
MANY = 1000


class Kind(NamedTuple):
    """What each frame of some moves, how many frames are timed, and of how many the instructions are counted."""

    name: str
    frames: int
    counted: int = 0


START = Kind("start", 1)
NONE = Kind("none moved", 500, 10)
ONE = Kind("one moved", 500, 10)
SIDE_BY_SIDE = Kind("1,000 moved, near", 5, 2)
FAR_APART = Kind("1,000 moved, far", 5, 2)
ALL = Kind("all moved", 3, 1)
KINDS = START, NONE, ONE, SIDE_BY_SIDE, FAR_APART, ALL


class Seen(NamedTuple):
    """What was seen of the frames of a kind: the faces of the mesh; and the seconds, points and bytes of a frame, in the
    mean."""

    faces: int
    seconds: float
    points: float
    written: float


class SessionEnded(Exception):
    """The program ended before it had answered."""


class Session:
    """The program, which has read a mesh and waits for moves, and how many seconds that took."""

    def __init__(self, program: Path, words: str, path: Path):
        start = time.perf_counter()
        self.process = subprocess.Popen([program, *words.split()], stdin=subprocess.PIPE, stdout=subprocess.PIPE)
        self.answer(path.read_bytes() + b"frames\ngo\n")
        self.seconds = time.perf_counter() - start

    def read(self) -> bytes:
        text = os.read(self.process.stdout.fileno(), CHUNK)
        if not text:
            raise SessionEnded(f"status {self.process.wait()} before the end of an answer")
        return text

    def send(self, lines: bytes) -> None:
        try:
            self.process.stdin.write(lines)
            self.process.stdin.flush()
        except BrokenPipeError:
            raise SessionEnded(f"status {self.process.wait()} before the end of the moves") from None

    def answer(self, lines: bytes) -> tuple[float, int, int]:
        """Sends lines of which the last is `go`: how many seconds that and the answer take, its points, and its bytes."""
        start = time.perf_counter()
        self.send(lines)
        text = self.read()
        while b"\n" not in text:
            text += self.read()
        points, ends, written = int(text.split(b"\n", 1)[0].split()[1]), text.count(b"\n"), len(text)
        while ends <= points:
            text = self.read()
            ends, written = ends + text.count(b"\n"), written + len(text)
        return time.perf_counter() - start, points, written

    def end(self) -> tuple[int, float]:
        """Ends the input: the status of the program, and its peak memory in megabytes."""
        self.process.stdin.close()
        self.process.stdout.close()
        _, status, use = os.wait4(self.process.pid, 0)
        self.process.returncode = os.waitstatus_to_exitcode(status)
        return self.process.returncode, use.ru_maxrss / 1024


# Moves


def coordinates(path: Path) -> list[bytes]:
    """The coordinates of the points of a mesh, as they are written."""
    with open(path, "rb") as text:
        return [line[2:].strip() for line in text if line.startswith(b"v ")]


def moved_points(kind: Kind, count: int, frames: int) -> Iterator[Sequence[int]]:
    """Of each frame the numbers of the points that it moves. All points, and those near each other, are in the order of the
    mesh, in which an animation program writes them."""
    far_apart = list(scattered(count))
    size = min({NONE: 0, ONE: 1, ALL: count}.get(kind, MANY), count)
    for number in range(frames):
        first = number * size
        if kind in (SIDE_BY_SIDE, ALL):
            yield range(first % (count - size + 1), first % (count - size + 1) + size)
        else:
            yield [far_apart[(first + place) % count] for place in range(size)]


def lines_of(numbers: Sequence[int], places: list[bytes], shift: int) -> bytes:
    """The lines of a frame: each point goes to the place in the mesh of the point whose number is greater by the shift."""
    return b"".join(b"move %d %s\n" % (number, places[(number + shift) % len(places)]) for number in numbers) + b"go\n"


def frames_of(kind: Kind, places: list[bytes], count: int) -> Iterator[bytes]:
    """The lines of each frame of a kind."""
    for shift, numbers in enumerate(moved_points(kind, len(places), count), start=1):
        yield lines_of(numbers, places, shift)


def text_of(kind: Kind, path: Path) -> bytes:
    """The input of a session whose instructions are counted: the mesh, a first frame, and frames of a kind."""
    return path.read_bytes() + b"frames\ngo\n" + b"".join(frames_of(kind, coordinates(path), kind.counted))


# What is seen


def faults_of(seen: dict[Kind, Seen], made: Made, status: int) -> list[str]:
    """What is wrong with a session on a closed mesh, by its status and by how many points it wrote."""
    points = made.faces + int(re.search(r" euler (-?\d+) ", made.first_line)[1])
    wanted = [("status", status, 0), ("points without a move", seen[NONE].points, 0), ("points of all", seen[ALL].points, points)]
    return [f"{what}: {got}, and not {right}" for what, got, right in wanted if got != right]


def seen_of(program: Path, words: str, made: Made, parts: int) -> tuple[dict[Kind, Seen], float, list[str]]:
    """What was seen of each kind in one session, with one of so many parts of its frames; the peak memory; and what is
    wrong."""
    places, session = coordinates(made.path), Session(program, words, made.path)
    seen = {START: Seen(made.faces, session.seconds, 0, 0)}
    for kind in KINDS[1:]:
        answers = [session.answer(lines) for lines in list(frames_of(kind, places, max(kind.frames // parts, 1)))]
        seen[kind] = Seen(made.faces, *(sum(column) / len(answers) for column in zip(*answers)))
    status, peak = session.end()
    return seen, peak, faults_of(seen, made, status)
