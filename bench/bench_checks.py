"""What is wrong with a run of the program, for `bench/bench.py`, and what its texts have or count."""

from __future__ import annotations

import re
from pathlib import Path
from typing import Callable

import bench_meshes as meshes

DEPTH_OF_STORED_TABLE = 3
# How many points and faces are present of the levels after level 0. All later levels have the counts of the last.
PRESENT = {meshes.cube: [(26, 24), (98, 96), (296, 216)], meshes.sheet: [(64, 36)]}


def depth_of(words: str) -> int:
    depth = re.search(r"depth=(\d+)", words)
    return int(depth[1]) if depth else DEPTH_OF_STORED_TABLE


def is_stored(words: str) -> bool:
    return words.startswith(("apply", "verify"))


def first_line(path: Path) -> str:
    with open(path, "rb") as text:
        return text.readline(1000).decode("utf-8", "replace").rstrip("\n")


def level_lines(path: Path) -> list[str]:
    """The lines `level` of a text, without the counts of texture."""
    with open(path, "rb") as text:
        return [line.decode().partition(" texture")[0].rstrip("\n") for line in text if line.startswith(b"level ")]


def entries_in(path: Path) -> int:
    """How many entries a table has that is in a text."""
    with open(path, "rb") as text:
        return next(int(line.split()[-1]) for line in text if line.startswith(b"table "))


# What is wrong


def wanted_levels(maker: Callable, words: str, made: meshes.Made) -> list[str]:
    """The lines `level` that the text of sparse levels is to have, from level 0 as far as they are known."""
    first, depth = re.search(r" points (\d+) .* faces (\d+) ", made.first_line).groups(), depth_of(words)
    later = PRESENT.get(maker, [])
    counts = [first, *(later + later[-1:] * depth)[:depth]]
    return [f"level {number} points {points} faces {faces}" for number, (points, faces) in enumerate(counts)]


def sparse_faults(maker: Callable, words: str, made: meshes.Made, sink: Path) -> list[str]:
    """What is wrong with a text of sparse levels."""
    lines, levels = level_lines(sink), depth_of(words) + 1
    faults = [] if len(lines) == levels else [f"{len(lines)} levels, and not {levels}"]
    pairs = zip(lines, wanted_levels(maker, words, made))
    return faults + [f"line '{line}', and not '{wanted}'" for line, wanted in pairs if line != wanted]


def faces_counted(words: str, path: Path) -> int | None:
    """How many faces the text that was written has or counts; nothing of a table."""
    if words.startswith(("refine", "limit")):
        with open(path, "rb") as text:
            return sum(line.startswith(b"f ") for line in text)
    has_none = words.startswith(("stencils", "patch", "map", "frames")) or is_stored(words)
    return None if has_none else int(re.findall(rb" faces (\d+)", path.read_bytes())[-1])


def faults_of(maker: Callable | None, words: str, made: meshes.Made, sink: Path, status: int) -> list[str]:
    """What is wrong with a run, by its status and by what it wrote."""
    line = first_line(sink)
    if status != made.status:
        return [f"status {status}, and not {made.status}: {line}"]
    if words.startswith(("levels", "frames")) and line != made.first_line:
        return [f"first line '{line}', and not '{made.first_line}'"]
    if words.startswith("sparse"):
        return sparse_faults(maker, words, made, sink)
    faces = faces_counted(words, sink) if depth_of(words) else None
    return [] if faces in (None, made.faces) else [f"{faces} faces, and not {made.faces}"]


# What a row counts


def counted(unit: str, words: str, made: meshes.Made, sink: Path) -> int:
    """How many of a unit a run makes or reads."""
    if unit == "entries":
        return entries_in(made.path if is_stored(words) else sink)
    if unit == "places":
        return sink.read_bytes().count(b"\n")
    if unit == "present faces":
        return sum(int(line.split()[-1]) for line in level_lines(sink))
    return made.faces


def bytes_moved(words: str, made: meshes.Made, sink: Path) -> int | None:
    """How many bytes a run reads and writes; nothing where they are next to none for what it does."""
    if words.startswith("gen") or words.startswith("levels") and depth_of(words):
        return None
    return made.path.stat().st_size + sink.stat().st_size
