#!/usr/bin/env python3
"""A plain, slow reference of the program `far`.

It is written from the definitions of `far_model` (Answer) and `subdiv_model` (Text), and the other modules of this package
from those that they name. All values are of `fractions.Fraction`. The package shares nothing with the program. The script
takes the program's words, standard input and standard output, and ends with the program's status:

    tests/reference/reference.py refine depth=1 < examples/cube.obj
    tests/reference/reference.py refine depth=1 uv=corners < examples/unfolded_cube.obj
    tests/run/run_cases.py --program tests/reference/reference.py --spare-slow
"""

from __future__ import annotations

import sys
from math import inf
from typing import BinaryIO, Iterable, Iterator

import paths  # noqa: F401
from reference.frames import frame_texts
from reference.leaf_map import map_text
from reference.level import Level, accepted, levels_text, sharp_edges
from reference.limit import limit_text
from reference.mask import positions_of, refined
from reference.obj import Mesh, Sharpness
from reference.patch import patch_text
from reference.run import read_mesh, run, understood
from reference.sparse import sparse_text
from reference.stored import applied_text, verified_text
from reference.table import sheet_text, table_text
from reference.text import corner_texts, line, point_lines, textured_corner_texts
from reference.texture import texture_of


# Lines


def face_lines(level: Level, faces: Iterable[Iterable[str]], with_holes: bool) -> list[str]:
    """The faces of a level, by their corners in words, with those that are holes or without them."""
    return [line("f", *words) for number, words in enumerate(faces) if with_holes or number not in level.holes]


def sharpness_text(value: Sharpness) -> str:
    return "10" if value == inf else str(value)


def tag_lines(level: Level) -> list[str]:
    """The tags that give the level again; tags count from 0."""
    method = [line("t creasemethod 0/0/1 chaikin")] if level.method == b"chaikin" else []
    creases = [line("t crease 2/1/0", *edge, sharpness_text(level.edge_sharpness(edge))) for edge in sharp_edges(level)]
    sharpness = sorted(level.vertex_sharpness.items())
    corners = [line("t corner 1/1/0", vertex, sharpness_text(value)) for vertex, value in sharpness]
    holes = [line("t hole 1/0/0", face) for face in sorted(level.holes)]
    return [line("t interpolateboundary 1/0/0 2"), *method, *creases, *corners, *holes]


# Answers


def depth_of(options: dict[bytes, bytes]) -> int:
    return int(options[b"depth"])


def decimals_of(options: dict[bytes, bytes]) -> int | None:
    return int(options[b"decimals"]) if b"decimals" in options else None


def rule_of(options: dict[bytes, bytes]) -> bytes:
    """The name of the rule that selects faces."""
    return options.get(b"select", b"feature")


def refined_text(obj: Mesh, options: dict[bytes, bytes]) -> str:
    """The text of a mesh that was read, refined as the options say, or its Refusal. The texture follows the positions,
    level by level; how it is refined makes no difference where there is none."""
    depth, by_table, with_tags = depth_of(options), options.get(b"by") != b"level", options.get(b"tags") == b"yes"
    decimals, base = decimals_of(options), accepted(obj, depth)
    level, points = refined(positions_of(obj, base), depth, by_table)
    lines, faces = point_lines("v", points, decimals), map(corner_texts, level.mesh.faces)
    if obj.has_texture:
        cut, texture = refined(texture_of(obj, base, options.get(b"uv", b"smooth")), depth, by_table)
        lines += point_lines("vt", texture, decimals)
        faces = map(textured_corner_texts, zip(level.mesh.faces, cut.mesh.faces))
    lines += face_lines(level, faces, with_tags)
    return "".join(lines + (tag_lines(level) if with_tags else []))


def written_levels_text(obj: Mesh, options: dict[bytes, bytes]) -> str:
    """The text of the sparse levels of a mesh that was read, or its Refusal."""
    return sparse_text(obj, depth_of(options), rule_of(options), decimals_of(options), options.get(b"uv", b"none"))


def leaves_text(obj: Mesh, options: dict[bytes, bytes]) -> str:
    """The text of the places of a face of a mesh that was read, or its Refusal."""
    face, grid, corner = (int(options.get(name, 0)) for name in (b"face", b"grid", b"corner"))
    return map_text(obj, depth_of(options), rule_of(options), (face, corner), grid)


# The text of each command that reads a mesh, of the mesh and the options.
TEXTS_OF_MESH = {
    b"refine": refined_text,
    b"stencils": lambda obj, options: table_text(obj, depth_of(options)),
    b"limit": lambda obj, options: limit_text(obj, depth_of(options), decimals_of(options)),
    b"levels": lambda obj, options: levels_text(obj, depth_of(options)),
    b"patch": lambda obj, options: patch_text(obj, depth_of(options), int(options[b"face"]), int(options[b"grid"])),
    b"sparse": written_levels_text,
    b"map": leaves_text,
}

# The text of each command that reads a stored table, of its input and the options.
TEXTS_OF_TABLE = {
    b"verify": lambda source, options: verified_text(source, depth_of(options)),
    b"apply": lambda source, options: applied_text(source),
}

# The text of each command that makes its mesh, of the options.
TEXTS_OF_OPTIONS = {
    b"gen": lambda options: sheet_text(int(options[b"seed"]), int(options[b"size"]), depth_of(options)),
}


# The texts of each command that answers while it reads, of its input and the options.
TEXTS_OF_INPUT = {
    b"frames": lambda source, options: frame_texts(source, depth_of(options), int(options.get(b"scale", 0))),
}


def answer(words: list[bytes], source: BinaryIO) -> Iterator[str]:
    """The texts that the program writes for these words (a list of bytes) and this input, one after another, each as soon
    as its lines are there, or a Refusal, which may come after texts."""
    command, options = understood(words)
    if command in TEXTS_OF_INPUT:
        yield from TEXTS_OF_INPUT[command](source, options)
    elif command in TEXTS_OF_TABLE:
        yield TEXTS_OF_TABLE[command](source, options)
    elif command in TEXTS_OF_OPTIONS:
        yield TEXTS_OF_OPTIONS[command](options)
    else:
        yield TEXTS_OF_MESH[command](read_mesh(source), options)


if __name__ == "__main__":
    sys.exit(run(answer))
