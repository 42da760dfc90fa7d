#!/usr/bin/env python3
"""Compares the built program with `tests/reference/reference.py` on random texts.

Each kind of run has texts of its own:

- lines that are good, bad or nearly bad, and three examples with a few changes, refined to depth 1 at most;
- meshes of `random_meshes.py`, many with texture: refined by tables and level by level, or with their levels counted or their
  tables written, to depth 3 at most; and each of them with its sparse levels to depth 4, its limit points, and the patch of a
  face, which mostly has one;
- meshes with places of a face that are mapped to their leaves, and textured meshes with their sparse levels;
- sheets that the program makes itself;
- inputs with moves, of `random_frames.py`; with stored tables, of `random_tables.py`; and cut ones, of `cut_inputs.py`.

Other kinds compare answers of the program with each other, on other meshes without fault:

- the points and the texture of sparse levels with those of whole levels (`sparse_points.py`, `sparse_texture_points.py`);
- the limit points of level 1 with those of level 3, where nothing is semi-sharp (`limit_points.py`);
- the patches of faces with limit points and with the patches of their children (`patch_laws.py`);
- meshes that are refined from a text of the program with those that are refined at once (`continued_refinement.py`).

The options are random too. The same seed makes the same words and texts. The script prints a text on which two answers differ,
and the exit status is then 1.

    tests/random/compare_random.py --seed 1 --count 3000 --meshes 1500 --frames 1200 --points 1000 --limits 1000 --continued 1000
    tests/random/compare_random.py --seed 1 --textures 300 --maps 300

A run is one process. Four at a time compare a hundred thousand answers so, each run with a seed of its own:

    seq 18 | xargs -P 4 -I SEED tests/random/compare_random.py --seed SEED
"""

from __future__ import annotations

import argparse
import io
import random
import subprocess
import sys
from collections import Counter
from functools import lru_cache
from itertools import islice
from pathlib import Path
from typing import Callable, Iterable, Iterator

from cut_inputs import cut_inputs
from draws import Draws
from paths import PROGRAM, TOP
from random_frames import Frames
from random_meshes import Meshes
from random_tables import Tables
from reference import reference
from reference.continued_refinement import continued_texts_agree
from reference.level import Level
from reference.limit_points import limits_stay
from reference.patch import patched_levels
from reference.patch_laws import drawn_faces, patches_agree
from reference.run import Refusal
from reference.sparse_points import points_agree
from reference.sparse_texture_points import texture_agrees

REFINE = ["refine", "depth=1"]
GREATEST_DEPTH = 3
GREATEST_SPARSE_DEPTH = 4
# How many faces the last level of a mesh that is refined has at most, of one whose table is written, and of one whose
# sparse levels are, so that the reference does not take long.
MOST_FACES = 800
MOST_TABLE_FACES = 400
MOST_SPARSE_FACES = 1600
SEEDS = ["0", "1", "7", str(2**31 - 1), str(2**31), str(2**32 - 1)]
SCALES = ["0", "1", "2", "3", "6", "17", "18"]
BAD_SCALES = ["scale=19", "scale=00", "scale=", "scale", "decimals=1", "depth=1", "Scale=1", "scale=-1"]
BAD_SPARSE = ["select=", "select=features", "select", "uv=no", "uv=", "decimals=19", "depth=1", "by=level", "tags=no"]
BAD_LIMITS = ["depth=0", "depth=11", "depth=01", "decimals=19", "decimals=", "by=level", "tags=no", "uv=smooth", "depth=1"]
BAD_PATCHES = ["grid=0", "grid=65", "grid=01", "face=4194304", "face=-1", "face=", "depth=11", "decimals=2", "grid"]
BAD_MAPS = ["grid=0", "grid=257", "face=1048576", "corner=65536", "corner=-1", "select=none", "decimals=2", "uv=none", "grid"]
BAD_SHEETS = ["size=0", "size=257", "seed=-1", f"seed={2**32}", "seed=00", "depth=11", "by=table", "size"]
OPTIONS = {
    "decimals": ["0", "1", "2", "3", "6", "17", "18"],
    "uv": ["smooth", "corners", "boundaries", "linear"],
    "by": ["table", "level"],
    "tags": ["yes", "yes", "no"],
}
BAD_OPTIONS = ["depth=1", "depth=01", "depth=11", "decimals=19", "decimals=-1", "uv=", "by=tables", "tags", "=1", "x=1"]
SPARSE_OPTIONS = {"select": ["feature", "all", "all"], "decimals": ["0", "3", "18"], "uv": ["none", *OPTIONS["uv"]]}
GRIDS = ["1", "1", "2", "2", "2", "3", "4", "5", "7", "8"]
LARGE_GRIDS = ["16", "63", "64"]
GREATEST_FACE = 2**22 - 1
MAP_GRIDS = ["1", "2", "2", "3", "4", "4", "5", "6", "8", "8"]
# How likely an option is there.
CHANCES = {"decimals": 0.4, "uv": 0.7, "by": 0.4, "tags": 0.4}
CUBE = (TOP / "examples" / "cube.obj").read_bytes()
UNFOLDED_CUBE = (TOP / "examples" / "unfolded_cube.obj").read_bytes()
NUMERALS = (
    ["1.", "-.5", ".", "+", "-", "nan", "0x1", "1e", "1e+", "--1", "-0", "00.10", "1e36", "1e37", "1e-37", "1e-38"]
    + ["0.0000001", "0.0000010", "9.9999999", "10.0000001", "9" * 37, "9" * 38, f"0.{1:037}", f"0.{1:038}"]
)
# Parts of fractions: small ones, and some at the bounds of a sharpness, of what is built, of a common denominator and
# of a numeral. The least common multiple of two long denominators may be 10^37, just above it, or far past it.
NUMERATORS = [0, 1, -1, 3, 7, 10, 9999999, 10000001, 20000003, -(10**18), 10**18 + 1, 10**36, 1 - 10**37]
DENOMINATORS = (
    [1, 2, 3, 4, 7, 12, 30, 10**6, 10**6 + 1, 2**18, 5**18, 10**9, 10**9 + 1, 10**18 - 1, 10**18, 10**18 + 1]
    + [10**19 - 1, 10**19, 2**37, 2**38, 5**37, 10**36, 10**37 - 1]
)
FRACTIONS = (
    ["1/0", "0/0", "1/000", "1//2", "/2", "1/", "/", "1/-2", "1/+2", "1.5/2", "1/2.", "1e2/3", "1/2e3", "1/2/3"]
    + ["--1/2", "+1/2", "-1/2", "-0/5", "00/01", "2/4", "6/3", "-7/0021"]
    + [f"{1:038}/{2:040}", f"{'0' * 40}/5", f"5/{'0' * 38}", f"{10**37 - 1}/3", f"{10**37}/10", f"10/{10**37}"]
)
LONG_DECIMALS = ["0.5", "1e18", "-1e35", "1e36", "1e-19", "1e-37"]
SHARPNESSES = (
    ["1/2", "3/2", "19/2", "10/1", "-1/2", "-0/7", "1/128", "0.0078125", "1/1000000", "1/1000001", "2/2000002"]
    + ["9999999/1000000", "9999999/1000001", "20000003/1000001"]
)
INDICES = ["0", "-0", "01", "-01", "+1", "", "x", str(2**63), str(-(2**63) - 1), "9" * 23]
OTHER_LINES = (
    ["", "# c", "vn 0 0 1", "g a", "o b", "s off", "usemtl x", "mtllib y", "l 1 2", "p 1", "x", "V 1 2 3", "v", "f"]
    + ["t", "t crease", "g a\\", "# a\\", "  ", "\t", "f 1 #2", "v 1 2 3 # x", "v 1 2 3#x"]
)
COUNTS = ["1/1", "1/1/0/0", "01/01/00", "-1/0/0", "1000000000/0/0", "000000001/1/0", "//", "1/1/x"]
# The counts of each tag, where `n` is a few words.
TAGS = {
    "crease": ("n", 1, 0),
    "corner": ("n", 1, 0),
    "hole": ("n", 0, 0),
    "interpolateboundary": (1, 0, 0),
    "creasemethod": (0, 0, 1),
    "facevaryingpropagatecorners": ("n", "n", "n"),
    "smooth": (0, 0, 0),
}


def expected(words: list[str], data: bytes) -> tuple[int, bytes, bytes]:
    """The status and what is written on standard output and standard error, by the reference."""
    texts, end = [], (0, "")
    try:
        for text in reference.answer([word.encode() for word in words], io.BytesIO(data)):
            texts.append(text)
    except Refusal as refusal:
        end = refusal.status, f"{refusal.line}\n"
    return end[0], "".join(texts).encode(), end[1].encode()


def is_taken(data: bytes) -> bool:
    """Whether a text has no fault, and neither its mesh nor a count of it has one."""
    return expected(["sparse", "depth=0"], data)[0] == 0


def has_texture(data: bytes) -> bool:
    """Whether the faces of a text have texture, and it can be refined once."""
    return b"\nvt" in data and b" texture " in expected(["sparse", "depth=1", "select=all", "uv=smooth"], data)[1]


def taken(text: Callable[[], bytes]) -> Iterator[bytes]:
    """The texts that a call gives, one after another, without those that are not taken."""
    return filter(is_taken, iter(text, None))


@lru_cache(maxsize=1)
def patches_for(data: bytes) -> list[tuple[int, Level, list[int]]]:
    """The levels of a text that have faces with a patch, and not too many faces, each with its number and those faces."""
    return patched_levels(data, GREATEST_DEPTH, MOST_TABLE_FACES)


_, REFINED_CUBE, _ = expected(REFINE, CUBE)


def sizes_of(data: bytes) -> list[int]:
    """How many corners each face of a text has, roughly where its lines are bad."""
    return [len(line.split()) - 1 for line in data.split(b"\n") if line.startswith(b"f")]


def corners_of(data: bytes) -> int:
    """How many corners the faces of a text have together."""
    return sum(sizes_of(data))


class Texts(Draws):
    """Random texts from a seed."""

    def long_fraction(self) -> str:
        return f"{self.random.choice(NUMERATORS)}/{self.random.choice(DENOMINATORS)}"

    def fraction(self) -> str:
        if self.happens(0.7):
            return f"{self.random.randint(-20, 20)}/{self.random.randint(1, 12)}"
        return self.long_fraction() if self.happens(0.6) else self.random.choice(FRACTIONS)

    def numeral(self) -> str:
        if self.happens(0.4):
            return str(self.random.randint(-9, 9))
        if self.happens(0.4):
            return self.fraction()
        if self.happens(0.4):
            return f"{self.random.randint(-5, 5)}.{self.random.randint(0, 99)}"
        if self.happens(0.5):
            exponent = self.random.choice([0, 1, 2, 17, 18, 19, 35, 36, 37, 38, 10**12, 10**25])
            return f"{self.random.randint(-99, 99)}{self.random.choice('eE')}{self.random.choice(['', '+', '-'])}{exponent}"
        return self.random.choice(NUMERALS)

    def long_number(self) -> str:
        """A numeral that is in range."""
        if self.happens(0.6):
            return str(self.random.randint(-9, 9))
        return self.long_fraction() if self.happens(0.6) else self.random.choice(LONG_DECIMALS)

    def index(self, most: int) -> str:
        if self.happens(0.7):
            return str(self.random.randint(1, most))
        return str(-self.random.randint(1, most)) if self.happens(0.7) else self.random.choice(INDICES)

    def corner(self, form: int) -> str:
        if self.happens(0.06):
            form = self.random.randint(0, 5)
        a, b, c = self.index(6), self.index(3), self.index(3)
        return [a, f"{a}/{b}", f"{a}//{c}", f"{a}/{b}/{c}", f"{a}/", f"{a}/{b}/{c}/1"][form]

    def tag(self) -> str:
        name = self.random.choice(list(TAGS))
        wholes, numerals, strings = (self.random.randint(0, 3) if n == "n" else n for n in TAGS[name])
        if self.happens(0.4):
            numerals = {"crease": wholes - 1, "corner": wholes}.get(name, numerals)
        counts = self.random.choice(COUNTS) if self.happens(0.05) else f"{wholes}/{max(numerals, 0)}/{strings}"
        words = [str(self.random.randint(0, 4)) if self.happens(0.85) else self.index(6) for _ in range(wholes)]
        words += [self.random.choice(SHARPNESSES) if self.happens(0.5) else self.numeral() for _ in range(numerals)]
        words += [self.random.choice(["normal", "chaikin", "x"]) for _ in range(strings)]
        if self.happens(0.06):
            words = words[:-1] if self.happens(0.5) else words + ["1"]
        return " ".join(["t", name, counts] + words)

    def plain_line(self) -> str:
        kind = self.random.choice(["v", "v", "v", "vt", "f", "f", "t", "other"])
        if kind == "v":
            return "v " + " ".join(self.numeral() for _ in range(self.random.choice([3, 3, 3, 3, 4, 6, 2])))
        if kind == "vt":
            return "vt " + " ".join(self.numeral() for _ in range(self.random.choice([1, 2, 2, 3, 0])))
        if kind == "f":
            form = self.random.choice([0, 0, 0, 1, 2, 3])
            return "f " + " ".join(self.corner(form) for _ in range(self.random.choice([3, 3, 4, 4, 2, 5, 1, 0])))
        return self.tag() if kind == "t" else self.random.choice(OTHER_LINES)

    def line(self) -> str:
        line = self.plain_line()
        if self.happens(0.05):
            line = line.replace(" ", "\t ", 1)
        return line + self.random.choice([""] * 20 + [" \\", "\r", "\r", " # c"])

    def changed_cube(self) -> list[str]:
        lines = self.random.choices([CUBE, UNFOLDED_CUBE, REFINED_CUBE], [5, 3, 2])[0].decode().splitlines()
        for _ in range(self.random.randint(0, 3)):
            place = self.random.randrange(len(lines))
            if self.happens(0.5):
                lines.insert(place, self.tag() if self.happens(0.3) else self.line())
            elif lines[place].startswith("v"):
                lines[place] = lines[place].split()[0] + " " + " ".join(self.numeral() for _ in range(3))
            else:
                self.random.shuffle(lines)
        return lines

    def long_numbers(self) -> list[str]:
        """Points and texture values whose lines are good by themselves."""
        kinds = self.random.choices(["v", "vt"], [2, 1], k=self.random.randint(1, 5))
        return [" ".join([kind] + [self.long_number() for _ in range(3)]) for kind in kinds]

    def lines(self) -> list[str]:
        if self.happens(0.5):
            return self.changed_cube()
        return self.long_numbers() if self.happens(0.2) else [self.line() for _ in range(self.random.randint(0, 9))]

    def text(self) -> bytes:
        data = ("\n".join(self.lines()) + self.random.choice(["\n", "\n", ""])).encode()
        if self.happens(0.03):
            data = b"\xef\xbb\xbf" + data
        if self.happens(0.05):
            data = data[: self.random.randrange(len(data) + 1)]
        return data


class Words(Draws):
    """Random words of command lines from a seed."""

    def __init__(self, seed: int):
        super().__init__(f"words of {seed}")

    def options(self, depth: int) -> list[str]:
        """The depth among other options, in any order, and now and then a bad one."""
        kept = [name for name in OPTIONS if self.random.random() < CHANCES[name]]
        options = [f"depth={depth}"] + [f"{name}={self.random.choice(OPTIONS[name])}" for name in kept]
        options += [self.random.choice(BAD_OPTIONS)] if self.random.random() < 0.01 else []
        self.random.shuffle(options)
        return options

    def for_text(self) -> list[str]:
        return ["refine", *self.options(self.random.choice([0, 1, 1, 1]))]

    def depth_for(self, corners: int, most_faces: int, greatest: int = GREATEST_DEPTH) -> int:
        """A depth at which a mesh of so many corners has at most so many faces, and now and then 0 or 1."""
        depths = [depth for depth in range(1, greatest + 1) if corners * 4 ** (depth - 1) <= most_faces]
        return self.random.choice([0, 1] + depths * 2)

    def for_mesh(self, data: bytes) -> list[str]:
        """The words by which a mesh is refined or has its table written, not too far for its corners, or has its levels
        counted. With texture it is mostly refined."""
        kind = self.random.random() + (0.3 if b"\nvt" in data else 0)
        if kind < 0.25:
            return ["levels", f"depth={self.random.randint(0, GREATEST_DEPTH)}"]
        corners = corners_of(data)
        if kind < 0.45:
            return ["stencils", f"depth={self.depth_for(corners, MOST_TABLE_FACES)}"]
        return ["refine", *self.options(self.depth_for(corners, MOST_FACES))]

    def for_sparse(self, data: bytes) -> list[str]:
        """The words by which the sparse levels of a mesh are written, not too far for its corners; now and then with a bad
        word."""
        options = [f"depth={self.depth_for(corners_of(data), MOST_SPARSE_FACES, GREATEST_SPARSE_DEPTH)}"]
        for name, values in SPARSE_OPTIONS.items():
            options += [f"{name}={self.random.choice(values)}"] if self.random.random() < 0.4 else []
        options += [self.random.choice(BAD_SPARSE)] if self.random.random() < 0.03 else []
        self.random.shuffle(options)
        return ["sparse", *options]

    def for_texture(self, data: bytes) -> list[str]:
        """The words by which the sparse levels of a mesh with texture are written with it."""
        options = [word for word in self.for_sparse(data) if not word.startswith("uv=")]
        return [*options, f"uv={self.random.choice(OPTIONS['uv'])}"]

    def face_and_corner(self, data: bytes) -> tuple[int, int]:
        """A face of a mesh and a corner with which it has places; now and then one that it does not have."""
        sizes = sizes_of(data)
        if not sizes or self.random.random() < 0.05:
            return self.random.choice([len(sizes), len(sizes) + 3, 2**20 - 1]), 0
        face = self.random.randrange(len(sizes))
        if self.random.random() < 0.05:
            return face, self.random.choice([1, sizes[face], 65535])
        return face, 0 if sizes[face] == 4 else self.random.randrange(max(sizes[face], 1))

    def for_map(self, data: bytes) -> list[str]:
        """The words by which places of a face of a mesh are mapped, not too far for its corners; now and then with a bad
        word, or without one."""
        face, corner = self.face_and_corner(data)
        depth = self.depth_for(corners_of(data), MOST_SPARSE_FACES, GREATEST_SPARSE_DEPTH)
        options = [f"depth={depth}", f"face={face}", f"grid={self.random.choice(MAP_GRIDS)}"]
        options += [f"corner={corner}"] if corner or self.random.random() < 0.2 else []
        options += [f"select={self.random.choice(SPARSE_OPTIONS['select'])}"] if self.random.random() < 0.6 else []
        options += [self.random.choice(BAD_MAPS)] if self.random.random() < 0.03 else []
        self.random.shuffle(options)
        return ["map", *options[1 if self.random.random() < 0.02 else 0 :]]

    def for_limit(self, data: bytes) -> list[str]:
        """The words by which the limit points of a mesh are written, not too far for its corners; now and then with a bad
        word."""
        options = [f"depth={max(self.depth_for(corners_of(data), MOST_TABLE_FACES), 1)}"]
        options += [f"decimals={self.random.choice(OPTIONS['decimals'])}"] if self.random.random() < 0.4 else []
        options += [self.random.choice(BAD_LIMITS)] if self.random.random() < 0.03 else []
        self.random.shuffle(options)
        return ["limit", *options]

    def depth_and_face(self, data: bytes) -> tuple[int, int]:
        """A depth and a face there: mostly one that has a patch, and else any of the first or the last that is allowed."""
        found = patches_for(data) if self.random.random() < 0.9 else []
        if not found:
            face = self.random.choice([0, self.random.randrange(64), GREATEST_FACE])
            return self.depth_for(corners_of(data), MOST_TABLE_FACES), face
        depth, _, faces = self.random.choice(found)
        return depth, self.random.choice(faces)

    def for_patch(self, data: bytes) -> list[str]:
        """The words by which the patch of a face is written, not too far for the corners of the mesh; now and then with a
        bad word, or without one."""
        depth, face = self.depth_and_face(data)
        grid = self.random.choice(LARGE_GRIDS if self.random.random() < 0.02 else GRIDS)
        options = [f"depth={depth}", f"face={face}", f"grid={grid}"]
        options += [self.random.choice(BAD_PATCHES)] if self.random.random() < 0.03 else []
        self.random.shuffle(options)
        return ["patch", *options[: 2 if self.random.random() < 0.02 else 4]]

    def for_frames(self, data: bytes) -> list[str]:
        """The words by which the control points of a mesh are moved, mostly as finely as the moves have decimals; now and
        then without a scale, or with a bad word."""
        mesh, _, moves = data.partition(b"\nframes")
        corners = corners_of(mesh)
        finest = max((len(word.partition(b".")[2]) for word in moves.split()), default=0)
        scale = str(min(finest, 18)) if self.random.random() < 0.8 else self.random.choice(SCALES)
        options = [f"depth={self.depth_for(corners, MOST_TABLE_FACES)}", f"scale={scale}"]
        self.random.shuffle(options)
        if self.random.random() < 0.03:
            options[self.random.randrange(2)] = self.random.choice(BAD_SCALES)
        if scale == "0" and self.random.random() < 0.5:
            options = [option for option in options if option != "scale=0"]
        return ["frames", *options]

    def for_sheet(self) -> list[str]:
        """The words by which a small sheet is made, or one with too many faces; now and then a bad one, or one too few."""
        seed = self.random.choice(SEEDS) if self.random.random() < 0.4 else str(self.random.randrange(2**32))
        size = self.random.choice([1, 1, 2, 2, 3, 3, 4, 5, 8])
        depth = self.depth_for(4 * size * size, MOST_TABLE_FACES) if self.random.random() < 0.95 else 10
        options = [f"seed={seed}", f"size={size if depth < 10 else 16}", f"depth={depth}"]
        self.random.shuffle(options)
        if self.random.random() < 0.1:
            options[self.random.randrange(3)] = self.random.choice(BAD_SHEETS)
        return ["gen", *options[: 2 if self.random.random() < 0.05 else 3]]


def agree(program: Path, kind: str, runs: Iterable[tuple[list[str], bytes]]) -> bool:
    """Whether the program answers as the reference does in all runs of a kind, each its words and its text; prints how
    it does not."""
    statuses = Counter()
    for words, data in runs:
        run = subprocess.run([program] + words, input=data, capture_output=True)
        given = run.returncode, run.stdout, run.stderr
        statuses[run.returncode] += 1
        if given != expected(words, data):
            print(f"{' '.join(words)}: {data!r}\n  gives  {given}\n  wanted {expected(words, data)}")
            return False
    print(f"{sum(statuses.values())} {kind} agree; by status: {dict(sorted(statuses.items()))}")
    return True


def patch_texts(seed: int, mesh_texts: list[bytes]) -> Iterator[bytes]:
    """As many texts as these, so that most patches are written: each fifth is one of these, and the others are meshes with
    faces that have a patch. In half of the others nothing is semi-sharp."""
    fifth, meshes = len(mesh_texts) // 5, Meshes(f"meshes of patches of {seed}")
    yield from mesh_texts[: len(mesh_texts) - 4 * fifth]
    for text in (meshes.text, meshes.lasting_text):
        yield from islice(filter(patches_for, iter(text, None)), 2 * fifth)


def textured_texts(seed: int, count: int) -> Iterator[bytes]:
    """So many texts of meshes with texture, which can be refined once."""
    return islice(filter(has_texture, iter(Meshes(f"textures of {seed}").text, None)), count)


def map_texts(seed: int, count: int) -> Iterator[bytes]:
    """So many texts of meshes, of which each tenth may have a fault."""
    meshes = Meshes(f"maps of {seed}")
    good = taken(meshes.text)
    return (meshes.text() if number % 10 == 9 else next(good) for number in range(count))


def kinds_of_runs(arguments: argparse.Namespace, lasting_texts: list[bytes]) -> Iterator[tuple[str, Iterable[tuple[list[str], bytes]]]]:
    """What is compared with the reference: of each kind its words and its texts."""
    seed = arguments.seed
    texts, meshes, words, frames = Texts(seed), Meshes(seed), Words(seed), Frames(seed)
    mesh_texts = [meshes.text() for _ in range(arguments.meshes)]
    inputs = (frames.text() for _ in range(arguments.frames))
    yield "texts", ((words.for_text(), texts.text()) for _ in range(arguments.count))
    yield "meshes", ((words.for_mesh(data), data) for data in mesh_texts)
    yield "sparse levels", ((words.for_sparse(data), data) for data in mesh_texts)
    yield "limit points", ((words.for_limit(data), data) for data in mesh_texts + lasting_texts)
    yield "patches", ((words.for_patch(data), data) for data in patch_texts(seed, mesh_texts))
    yield "textured sparse levels", ((words.for_texture(data), data) for data in textured_texts(seed, arguments.textures))
    yield "maps", ((words.for_map(data), data) for data in map_texts(seed, arguments.maps))
    yield "sheets", ((words.for_sheet(), b"") for _ in range(arguments.sheets))
    yield "inputs with moves", ((words.for_frames(data), data) for data in inputs)
    tables = Tables(seed)
    checked = (tables.mesh_with_table() for _ in range(arguments.tables))
    yield "meshes with their tables", ((["verify", f"depth={depth}"], data) for depth, data in checked)
    yield "tables with points", ((["apply"], tables.table_with_points()) for _ in range(arguments.tables))
    yield "cut inputs", cut_inputs()


def compared_with_itself(arguments: argparse.Namespace, lasting_texts: list[bytes]) -> Iterator[bool]:
    """Whether the program agrees with itself, comparison by comparison."""
    program, seed = arguments.program, arguments.seed
    others, bases, sources = (taken(Meshes(f"{name} of {seed}").text) for name in ("points", "texts", "patches"))
    yield points_agree(program, islice(others, arguments.points))
    yield texture_agrees(program, textured_texts(seed, arguments.textures))
    yield limits_stay(program, lasting_texts)
    drawn = drawn_faces(random.Random(f"faces of {seed}"), sources)
    yield patches_agree(program, islice(drawn, arguments.patches))
    yield continued_texts_agree(program, islice(bases, arguments.continued))


def arguments_of_run() -> argparse.Namespace:
    parser = argparse.ArgumentParser(description="Compares the program with the reference on random texts.")
    parser.add_argument("--program", type=Path, default=TOP / PROGRAM, help="the program to run")
    parser.add_argument("--seed", type=int, default=1, help="the seed of the texts")
    parser.add_argument("--count", type=int, default=1000, help="how many texts are refined")
    parser.add_argument("--meshes", type=int, default=1000, help="how many meshes each command reads that reads meshes")
    parser.add_argument("--sheets", type=int, default=200, help="how many sheets are made")
    parser.add_argument("--frames", type=int, default=400, help="how many inputs with moves are answered")
    parser.add_argument("--tables", type=int, default=400, help="how many stored tables are compared, and how many applied")
    parser.add_argument("--points", type=int, default=100, help="how many meshes have their points compared by two commands")
    parser.add_argument("--textures", type=int, default=30, help="how many meshes have their texture at sparse levels compared")
    parser.add_argument("--maps", type=int, default=30, help="how many meshes have places of a face mapped to leaves")
    parser.add_argument("--limits", type=int, default=100, help="how many meshes have their limit points compared twice")
    parser.add_argument("--patches", type=int, default=100, help="how many faces have their patches compared with others")
    parser.add_argument("--continued", type=int, default=100, help="how many meshes are refined from texts of the program")
    return parser.parse_args()


def main() -> int:
    arguments = arguments_of_run()
    lasting_texts = list(islice(taken(Meshes(f"limit points of {arguments.seed}").lasting_text), arguments.limits))
    agreed = [agree(arguments.program, kind, runs) for kind, runs in kinds_of_runs(arguments, lasting_texts)]
    agreed += compared_with_itself(arguments, lasting_texts)
    return 0 if all(agreed) else 1


if __name__ == "__main__":
    sys.exit(main())
