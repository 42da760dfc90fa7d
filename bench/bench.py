#!/usr/bin/env python3
"""Times the commands of the built program on large meshes, some of which are made to take long, and prints a table.

    bench/bench.py                      # the rows of docs/performance.md
    bench/bench.py --write              # puts them into docs/performance.md
    bench/bench.py --all --only wheel   # of all rows those whose words and mesh have this text
    bench/bench.py --quick --program PROGRAM   # small meshes and no instructions, to try a program that is slow

A row is for a command and a mesh:

- what is counted: the faces of the last level, or of the mesh where the program refuses it; under `sparse` the present faces of
  all levels; under `map` the places; the entries of a table; the moves, or the points that a frame writes;
- the nanoseconds for each that is counted, and for each byte that the program reads or writes. They are of the least time of
  some runs, which are whole processes with reading and writing;
- the greatest peak of memory, and its bytes for each that is counted, in brackets at the smaller size;
- the growth: the exponent with which the time grows with what is counted, from a size that is eight times smaller. 1.0 is linear,
  and 0.0 is flat. The runs of both sizes take turns, and the smaller size has more of them;
- the growth of the instructions, from the 64th part of the size to the eighth, or between the two least sizes that the mesh has.
  They do not vary from run to run, whatever else the machine does. perf counts them, or else valgrind; without both the column
  is empty.

The sessions of `frames` have a row for what each frame moves. Their growth is that of a frame with the faces of the mesh.
`apply` and `verify` read the table of depth 3 with the mesh.

The script checks the status, the first line of `levels`, how many faces a text has or counts, and the lines `level` of
`sparse`: all of them for the cube and the sheets, and that of level 0 for others. It prints what is wrong, and the exit
status is then 1. Peaks below 10 MB are those of Python.
"""

from __future__ import annotations

import argparse
import math
import os
import re
import subprocess
import sys
import tempfile
import time
from concurrent.futures import ThreadPoolExecutor
from multiprocessing import Pool
from pathlib import Path
from typing import Callable, Iterable, Iterator, NamedTuple

import bench_frames
import bench_meshes as meshes
from bench_checks import DEPTH_OF_STORED_TABLE, bytes_moved, counted, depth_of, faults_of, is_stored
from bench_runs import Tool, instructions, run_once, tool_that_counts
from paths import PROGRAM, TOP

PAGE = TOP / "docs/performance.md"
TABLE = re.compile(r"^Measured on .*\n\n(?:\|.*\n)+", re.MULTILINE)
TITLES = "Words", "Mesh", "Counted", "ns each", "ns a byte", "MB", "Bytes each", "Growth", "Instructions", "Bound"
STEP = 8  # how many times smaller the next size is
QUICK_FRAMES = 10
LEAST_RATIO_OF_TIME, LEAST_RATIO = 4, 1.9  # how many times more a mesh must have that growth is reported: time varies
RUNS_OF_SMALL = 3  # how many runs of the smaller size there are for each of the larger
LEAST_THAT_GROWS = 64
LEAST_SIZE = {meshes.creased_character: 340 * 4**2, meshes.semi_sharp_character: 340 * 4**2}  # of makers that need one
QUICK = 64
MILLION = 10**6


class Case(NamedTuple):
    """The words, the mesh, how it is made, and its size; `gen` makes its own. Then what a row counts, and what bounds the
    time, in a word or two; empty where docs/performance.md has no such row."""

    words: str
    mesh: str
    maker: Callable | None
    size: int
    unit: str = "faces"
    bound: str = ""


def cases_of(mesh: str, maker: Callable | None, size: int, *rows: tuple[str, ...]) -> list[Case]:
    """The cases of a mesh: of each the words, and the last fields where they are not the usual ones."""
    return [Case(row[0], mesh, maker, size, *row[1:]) for row in rows]


CHARACTER = "character", meshes.character, 340 * 8**2
TORUS = "torus", meshes.torus, 64**2
STORED = f"verify depth={DEPTH_OF_STORED_TABLE}"
FLAT = "refine depth=3"
BY_LEVEL = "refine depth=3 by=level"
DECIMALS = "refine depth=3 decimals=6"
# Face 2 of level 2 lies inside a face of level 0, so that it has a patch where that is a quad.
PATCH = "patch depth=2 face=2 grid=64"
CASES = [
    *cases_of(*CHARACTER, ("levels depth=3", "faces", "topology"), (FLAT, "faces", "table"), (BY_LEVEL, "faces", "masks")),
    *cases_of(*CHARACTER, (DECIMALS,), ("limit depth=2", "faces", "table"), (PATCH, "faces", "table")),
    *cases_of(*CHARACTER, ("map depth=10 face=0 grid=256", "places", "places"), ("refine depth=2",), ("stencils depth=2",)),
    *cases_of(*CHARACTER, ("stencils depth=3", "entries"), ("map depth=3 face=0 grid=256", "places")),
    *cases_of("textured character", meshes.textured_character, CHARACTER[2], (FLAT, "faces", "table"), (BY_LEVEL,), (DECIMALS,)),
    *cases_of("textured character", meshes.textured_character, CHARACTER[2], ("sparse depth=10 uv=smooth", "present faces", "masks")),
    *cases_of(*TORUS, ("stencils depth=3", "entries", "table"), ("apply", "entries", "reading"), (STORED, "entries", "reading")),
    *cases_of(*TORUS, (FLAT,), (BY_LEVEL,), (DECIMALS,), ("levels depth=3",), ("refine depth=2",), ("limit depth=2",), (PATCH,)),
    *cases_of("sheet", meshes.sheet, 64**2, (FLAT,), (BY_LEVEL,), ("sparse depth=10", "present faces")),
    *cases_of("creased sheet", meshes.creased_sheet, 64**2, (BY_LEVEL, "faces", "masks"), (FLAT,), ("refine depth=3 tags=yes",)),
    *cases_of("textured sheet", meshes.textured_sheet, 64**2, (FLAT,), (BY_LEVEL,), ("refine depth=3 uv=linear",)),
    *cases_of("large sheet", meshes.sheet, 512**2, ("sparse depth=10", "present faces", "reading")),
    *cases_of("creased character", meshes.creased_character, CHARACTER[2], ("sparse depth=10", "present faces", "masks")),
    *cases_of("semi-sharp character", meshes.semi_sharp_character, CHARACTER[2], ("sparse depth=10", "present faces")),
    *cases_of("character by its bumps", meshes.bumpy_character, 216, ("sparse depth=10", "present faces")),
    *cases_of("cube", meshes.cube, 6, ("sparse depth=10", "present faces")),
    *cases_of("its own", None, 128**2, ("gen seed=7 size={side} depth=3", "faces", "table")),
    *cases_of("one quad", meshes.sheet, 1, ("levels depth=10",)),
    *cases_of("one fan", meshes.wheel, 2**16, ("levels depth=0", "faces", "sort")),
    *cases_of("torus of a million quads", meshes.torus, 2**20, ("levels depth=0", "faces", "reading")),
    *cases_of("creased sheet, hidden boundary", meshes.hidden_sheet, 1023**2, ("levels depth=0",)),
    *cases_of("triangles with colliding edges", meshes.colliding, 300000, ("levels depth=0", "faces", "points")),
    *cases_of("faces at one vertex, in one fan", meshes.wheel, MILLION, ("levels depth=0",)),
    *cases_of("faces at one vertex, in two fans", meshes.two_wheels, MILLION, ("levels depth=0",)),
    *cases_of("faces over one edge", meshes.one_edge, MILLION, ("levels depth=0",)),
    *cases_of("one face, by its corners", meshes.one_face, MILLION, ("levels depth=0", "corners")),
    *cases_of("wheel of triangles", meshes.wheel, 65537, ("levels depth=0",)),
    *cases_of("torus of quads, the last turned over", meshes.turned_torus, 2**20, ("levels depth=0",)),
    *cases_of("cube", meshes.moved_cube, MILLION, ("frames depth=1", "moves", "reading")),
]
SESSIONS = [
    Case("frames depth=3", *CHARACTER, "points", "rows"),
    Case("frames depth=3", "torus", meshes.torus, 142**2, "points"),
]


# Meshes


class Texts:
    """The texts of meshes, each made once, in a folder."""

    def __init__(self, folder: Path, program: Path):
        self.folder, self.program = folder, program
        self.made: dict[tuple[str, int], tuple[Path, meshes.Mesh]] = {}

    def make(self, cases: Iterable[Case], sizes_of: Callable[[Case], tuple[int, ...]]) -> None:
        """Makes the texts of cases, as many at a time as there are processors."""
        wanted = {(case.mesh, size): case.maker for case in cases if case.maker for size in sizes_of(case)}
        paths = [self.folder / f"mesh{number}" for number in range(len(wanted))]
        with Pool() as pool:
            made = pool.starmap(write_mesh, [(path, maker, key[1]) for path, (key, maker) in zip(paths, wanted.items())], 1)
        self.made = dict(zip(wanted, zip(paths, made)))

    def text_for(self, case: Case, size: int) -> meshes.Made:
        """The input of a case, and what is wanted of its run."""
        depth = depth_of(case.words)
        if case.maker is None:
            return meshes.Made(Path(os.devnull), math.isqrt(size) ** 2 * 4**depth, meshes.GOOD, "")
        path, mesh = self.made[case.mesh, size]
        if is_stored(case.words):
            path = self.with_table(case, path)
        faces = mesh.corners * 4 ** (depth - 1) if depth else mesh.faces
        return meshes.Made(path, faces, mesh.status, mesh.first_line)

    def with_table(self, case: Case, path: Path) -> Path:
        """The table of a mesh before its text for `apply`, and behind it for `verify`."""
        is_first = case.words.startswith("apply")
        to = path.with_suffix(".apply" if is_first else ".verify")
        if not to.exists():
            mesh, asked = path.read_bytes(), [self.program, "stencils", f"depth={DEPTH_OF_STORED_TABLE}"]
            table = subprocess.run(asked, input=mesh, stdout=subprocess.PIPE, check=True).stdout
            to.write_bytes(table + mesh if is_first else mesh + table)
        return to


def write_mesh(path: Path, maker: Callable[[int], meshes.Mesh], size: int) -> meshes.Mesh:
    """Writes the text of a mesh. The answer is the mesh without its lines, which cannot be handed on."""
    mesh = maker(size)
    with open(path, "w") as text:
        text.writelines(line + "\n" for line in mesh.lines)
    return mesh._replace(lines=())


# Measures


class Measured(NamedTuple):
    """What was seen of a case at one size: the size with which it grows, how many are counted, the least time, the greatest
    peak in megabytes, the bytes that were read and written, and what is wrong."""

    size: float
    count: float
    seconds: float
    peak: float = 0
    bytes: float | None = None
    faults: tuple[str, ...] = ()


class Row(NamedTuple):
    """What is seen of a case, or of a kind of frames, at its size and at the eighth of it."""

    words: str
    mesh: str
    unit: str
    seen: list[Measured]


class Bench:
    """The program, the texts, the tool that counts, and how cases are measured."""

    def __init__(self, program: Path, runs: int, is_quick: bool, folder: Path):
        self.program, self.runs, self.is_quick, self.folder = program, runs, is_quick, folder
        self.texts, self.tool = Texts(folder, program), None if is_quick else tool_that_counts()

    def sizes_of(self, case: Case) -> tuple[int, ...]:
        """The size of a case, its eighth, and its 64th part, as far as they differ; one size where the mesh is small."""
        size, least = max(case.size // QUICK, 1) if self.is_quick else case.size, LEAST_SIZE.get(case.maker, 1)
        parts = (size, size // STEP, size // STEP**2) if size >= LEAST_THAT_GROWS else (size,)
        return tuple(dict.fromkeys(max(part, least) for part in parts))

    def make(self, cases: list[Case]) -> None:
        """Makes all texts."""
        self.texts.make(cases, self.sizes_of)

    def rows_of(self, case: Case) -> list[Row]:
        """The rows of a case: one, or one for each kind of frames."""
        if case in SESSIONS:
            return list(self.rows_of_session(case))
        return [Row(words_of(case, self.sizes_of(case)[0]), case.mesh, case.unit, self.measured(case))]

    def counts_of(self, case: Case) -> list[list[tuple[float, float]]]:
        """Of each row of a case the instructions for how many at its two least sizes; nothing where none are counted."""
        sizes = self.sizes_of(case)[-2:]
        if self.tool is None or len(sizes) < 2:
            return [[]] * (len(bench_frames.KINDS) if case in SESSIONS else 1)
        if case in SESSIONS:
            return [list(pair) for pair in zip(*(self.instructions_of_session(case, size) for size in sizes))]
        return [[self.instructions_of(case, size) for size in sizes]]

    # Whole runs

    def measured(self, case: Case) -> list[Measured]:
        """What is seen of a case at its size, and at the eighth of it."""
        sizes, sink = self.sizes_of(case)[:2], self.folder / "written"
        runs, counts = [[] for _ in sizes], [None for _ in sizes]
        for _ in range(self.runs):
            for place, size in enumerate(sizes):
                words, made = words_of(case, size), self.texts.text_for(case, size)
                runs[place] += [run_once(self.program, words, made.path, sink) for _ in range(runs_of(sizes, place))]
                counts[place] = counts[place] or self.counted_by(case, size, sink, runs[place][-1].status)
        sink.unlink()
        best = [(min(run.seconds for run in seen), max(run.peak for run in seen)) for seen in runs]
        return [Measured(count, count, *one, moved, faults) for one, (count, moved, faults) in zip(best, counts)]

    def counted_by(self, case: Case, size: int, sink: Path, status: int) -> tuple[int, int | None, tuple[str, ...]]:
        """How many a run counted, how many bytes it read and wrote, and what is wrong with it."""
        words, made = words_of(case, size), self.texts.text_for(case, size)
        faults = faults_of(case.maker, words, made, sink, status)
        count = made.faces if faults else counted(case.unit, words, made, sink)
        return count, bytes_moved(words, made, sink), tuple(faults)

    def instructions_of(self, case: Case, size: int) -> tuple[float, float]:
        """How many instructions a case takes at a size, and for how many."""
        words, made = words_of(case, size), self.texts.text_for(case, size)
        with tempfile.TemporaryDirectory(dir=self.folder) as folder:
            sink = Path(folder) / "written"
            count = instructions(self.tool, [str(self.program), *words.split()], str(made.path), str(sink))
            return count or 0, counted(case.unit, words, made, sink)

    # Sessions

    def rows_of_session(self, case: Case) -> Iterator[Row]:
        """A row for each kind of frames, from the session at each of two sizes where it took least."""
        parts, sizes = QUICK_FRAMES if self.is_quick else 1, self.sizes_of(case)[:2]
        turns = [size for _ in range(self.runs) for size in sizes]
        sessions = [bench_frames.seen_of(self.program, case.words, self.texts.text_for(case, size), parts) for size in turns]
        for kind in bench_frames.KINDS:
            seen = []
            for place, _ in enumerate(sizes):
                of_size = sessions[place :: len(sizes)]
                least = min((frames[kind] for frames, _, _ in of_size), key=lambda one: one.seconds)
                faults = tuple(fault for _, _, found in of_size for fault in found if kind is bench_frames.START)
                peak = max(peak for _, peak, _ in of_size) if kind is bench_frames.START else 0
                count = least.faces if kind is bench_frames.START else least.points or 1
                seen.append(Measured(least.faces, count, least.seconds, peak, least.written or None, faults))
            unit = "faces" if kind is bench_frames.START else "points" if seen[0].count > 1 else "frame"
            yield Row(case.words, f"{case.mesh}, {kind.name}", unit, seen)

    def instructions_of_session(self, case: Case, size: int) -> Iterator[tuple[float, float]]:
        """How many instructions a frame of each kind takes at a size, and for how many faces of the mesh."""
        made = self.texts.text_for(case, size)
        with tempfile.TemporaryDirectory(dir=self.folder) as folder:
            source, sink, start = Path(folder) / "source", Path(folder) / "written", 0
            for kind in bench_frames.KINDS:
                source.write_bytes(bench_frames.text_of(kind, made.path))
                count = instructions(self.tool, [str(self.program), *case.words.split()], str(source), str(sink)) or 0
                yield (count - start) / max(kind.counted, 1), made.faces
                start = start or count


def runs_of(sizes: tuple[int, ...], place: int) -> int:
    """How many runs there are of a size in a turn: more of one that is much smaller."""
    return RUNS_OF_SMALL if sizes[place] * STEP <= sizes[0] else 1


def words_of(case: Case, size: int) -> str:
    return case.words.format(side=math.isqrt(size))


# The table


def growth(pairs: list[tuple[float, float]], least_ratio: float = LEAST_RATIO) -> str:
    """The exponent with which the first number grows with the second, which is greater in the first pair; nothing where the
    second hardly grows."""
    if len(pairs) < 2 or min(map(min, pairs)) <= 0 or pairs[0][1] < least_ratio * pairs[1][1]:
        return ""
    (large, many), (small, few) = pairs
    return f"{round(math.log(large / small) / math.log(many / few), 2) + 0:.2f}"


def short(value: float) -> str:
    return f"{value:,.0f}" if value >= 100 else f"{value:.3g}"


def cells_of(case: Case, row: Row, counts: list[tuple[float, float]]) -> list[str]:
    """The cells of a row."""
    large, small = row.seen[0], row.seen[-1]
    each = [short(one.peak * 2**20 / one.count) for one in row.seen if one.peak]
    return [
        f"`{row.words}`",
        row.mesh,
        f"{large.count:,.0f} {row.unit}",
        short(large.seconds * 1e9 / large.count),
        short(large.seconds * 1e9 / large.bytes) if large.bytes else "",
        short(large.peak) if large.peak else "",
        f"{each[0]} ({each[-1]})" if len(each) > 1 else "".join(each),
        growth([(one.seconds, one.size) for one in row.seen], LEAST_RATIO_OF_TIME),
        growth(counts),
        case.bound,
    ]


def line_of(cells: Iterable[str]) -> str:
    """A line of a table. An empty cell has no space of its own."""
    return "|" + "|".join(f" {cell} " if cell else " " for cell in cells) + "|"


def machine(tool: Tool | None, runs: int) -> str:
    """The line above the table: where, when and how it was measured."""
    cpuinfo = Path("/proc/cpuinfo")
    names = re.findall(r"^model name\s*: (.*)$", cpuinfo.read_text(), re.MULTILINE) if cpuinfo.is_file() else []
    how = f"load {os.getloadavg()[0]:.1f} at the start, least of {runs} runs, "
    how += f"instructions counted by {tool('')[0]}" if tool else "instructions not counted"
    where = f"{os.cpu_count()} processors of {names[0] if names else 'this machine'}"
    return f"Measured on {where}, {time.strftime('%Y-%m-%d')}, {how}:"


def arguments() -> argparse.Namespace:
    parser = argparse.ArgumentParser(description="Times the commands of the program on large meshes.")
    parser.add_argument("--program", type=Path, default=TOP / PROGRAM, help="the program to run")
    parser.add_argument("--runs", type=int, default=4, help="how many runs of each mesh at its larger size")
    parser.add_argument("--only", default="", metavar="TEXT", help="only the rows whose words and mesh have this text")
    parser.add_argument("--all", action="store_true", help="also the rows that docs/performance.md has not")
    parser.add_argument("--quick", action="store_true", help=f"make the meshes {QUICK} times smaller, and count no instructions")
    parser.add_argument("--write", action="store_true", help="put the table into docs/performance.md")
    return parser.parse_args()


def run_cases(bench: Bench, cases: list[Case]) -> tuple[list[str], list[str]]:
    """Measures cases and prints their rows: the lines of the table, and what is wrong."""
    bench.make(cases)
    with ThreadPoolExecutor(os.cpu_count()) as pool:
        counts = list(pool.map(bench.counts_of, cases))
    lines, faults = [line_of(TITLES), "|" + "---|" * len(TITLES)], []
    print("\n".join(lines), flush=True)
    for case, counted_of_case in zip(cases, counts):
        for row, one in zip(bench.rows_of(case), counted_of_case):
            lines.append(line_of(cells_of(case, row, one)))
            print(lines[-1], flush=True)
            faults += [f"wrong: `{case.words}` {row.mesh}: {fault}" for seen in row.seen for fault in seen.faults]
    return lines, faults


def main() -> int:
    options = arguments()
    cases = [case for case in CASES + SESSIONS if options.only in f"{case.words} {case.mesh}" and (options.all or case.bound)]
    with tempfile.TemporaryDirectory() as folder:
        bench = Bench(options.program.resolve(), options.runs, options.quick, Path(folder))
        first = machine(bench.tool, options.runs)
        print(f"{first}\n")
        try:
            lines, faults = run_cases(bench, cases)
        except bench_frames.SessionEnded as ended:
            faults = [f"wrong: {ended}"]
    for fault in faults:
        print(fault)
    if faults or not cases:
        return 1
    if options.write:
        page, count = TABLE.subn(lambda _: "\n".join([first, "", *lines, ""]), PAGE.read_text(encoding="utf-8"), count=1)
        PAGE.write_text(page, encoding="utf-8")
        return 0 if count else 1
    return 0


if __name__ == "__main__":
    sys.exit(main())
