"""Opens the file of a mesh for a command: reads it, warns of what is left out, and rounds its coordinates."""

from __future__ import annotations

import argparse
import sys
from collections import Counter
from dataclasses import replace
from pathlib import Path

from .explain import in_file
from .failure import CommandError
from .numbers import ROUND_LIMIT, whole
from .obj_edit import rounded_points
from .obj_file import ObjFile, read_obj_file, refuse_as_library
from .source import EXPORT, name_of, read_source

DEPTH_LIMIT = 10

# The endings of files of other formats, which nobody means for OBJ text.
OTHER_FORMATS = frozenset(
    ".3ds .3mf .abc .blend .dae .fbx .glb .gltf .off .ply .stl .usd .usda .usdc .usdz .x3d".split()
)


def add_file_argument(parser: argparse.ArgumentParser) -> None:
    """Adds the file of the mesh."""
    parser.add_argument("file", nargs="?", metavar="FILE", help="the OBJ file; without it, or with -, standard input")


def add_depth_argument(parser: argparse.ArgumentParser, least: int = 0) -> None:
    """Adds the depth."""
    text = f"the number of steps: {least} to {DEPTH_LIMIT}"
    parser.add_argument("-d", "--depth", type=whole(least, DEPTH_LIMIT), required=True, metavar="N", help=text)


def add_output_argument(parser: argparse.ArgumentParser) -> None:
    """Adds the file that is written."""
    text = "the output file, written whole or not at all; without it, or with -, standard output"
    parser.add_argument("-o", "--output", type=output_path, metavar="FILE", help=text)


def output_path(word: str) -> str:
    """Returns the path of a file of text. Raises ArgumentTypeError for one with the name of another format."""
    suffix = Path(word).suffix.lower()
    if suffix in OTHER_FORMATS:
        raise argparse.ArgumentTypeError(f"the command writes OBJ text and no {suffix} file: say {Path(word).stem}.obj")
    return word


def add_round_argument(parser: argparse.ArgumentParser) -> None:
    """Adds the rounding of coordinates before anything else."""
    text = f"round coordinates to N decimals before refinement, half to even: 0 to {ROUND_LIMIT}"
    parser.add_argument("--round", type=whole(0, ROUND_LIMIT), metavar="N", help=text)


def open_file(path: str | None, decimals: int | None = None, quiet: bool = False) -> ObjFile:
    """Reads the file of a mesh, and rounds its coordinates to so many decimals where that is asked.

    Warnings, unless it is quiet, and the count of rounded coordinates go to standard error. Raises CommandError where
    the file cannot be read.
    """
    data = read_source(path)
    with in_file(path):
        file = read_obj_file(data)
    if not quiet:
        for warning in lines_of_warnings(file):
            print(warning, file=sys.stderr)
    if decimals is None:
        return file
    text, changed = rounded_points(file, decimals)
    of_all = f"{changed} of {3 * len(file.points)} coordinates"
    print(f"drillolive: {name_of(path)}: {of_all} were rounded to {decimals} decimals", file=sys.stderr)
    return replace(file, text=text)


def open_mesh(path: str | None, decimals: int | None = None, quiet: bool = False) -> ObjFile:
    """Reads the file of a mesh as `open_file` does. Raises CommandError where it has no faces, too."""
    file = open_file(path, decimals, quiet)
    if not file.face_sizes:
        with in_file(path, file):
            refuse_as_library(file.text)
        raise CommandError(f"{name_of(path)}: {_nothing(file)}", EXPORT)
    return file


def _nothing(file: ObjFile) -> str:
    if not file.text.strip():
        return "the file is empty"
    return "the file has no faces" + (", and its curves and surfaces are left out" if file.warnings else "")


def lines_of_warnings(file: ObjFile) -> list[str]:
    """Returns a line for the first statement of each kind that is left out, and one for how many more there are."""
    counts = Counter(what for _, what in file.warnings)
    lines, told = [], set()
    for number, what in file.warnings:
        if what not in told:
            lines.append(f"warning: line {number}: {what}")
            told.add(what)
    more = [(what, count - 1) for what, count in counts.items() if count > 1]
    return lines + [f"warning: {what} on {count} more line{'s' * (count > 1)}" for what, count in more]
