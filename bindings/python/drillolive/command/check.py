"""The command `check`: lists all faults of a mesh in the lines of its file, or writes a mesh without them."""

from __future__ import annotations

import argparse
import sys

from .. import Mesh
from .explain import in_file
from .failure import REFUSED, USAGE, CommandError
from .faults import judge_faces, lines_of, listed, sentences_of_faults
from .numbers import whole
from .obj_file import ObjFile
from .opening import DEPTH_LIMIT, add_file_argument, add_output_argument, lines_of_warnings, open_mesh
from .output import write_output
from .source import name_of
from .split import Split, split
from .split_text import text_of_split
from .warnings import warnings_of


def add_arguments(parser: argparse.ArgumentParser) -> None:
    """Adds the options of the command."""
    add_file_argument(parser)
    text = f"also warn of what prevents N steps of refinement: 0 to {DEPTH_LIMIT}"
    parser.add_argument("-d", "--depth", type=whole(0, DEPTH_LIMIT), metavar="N", help=text)
    text = "write a manifold: each fan of faces gets its own points, and degenerate faces are left out"
    parser.add_argument("--split", action="store_true", help=text)
    add_output_argument(parser)


def run(arguments: argparse.Namespace) -> int:
    """Checks the mesh of a file, or makes a manifold of it. The status is 1 where faults are listed."""
    if arguments.split:
        return run_split(arguments)
    if arguments.output is not None:
        advice = "Say --split too, or > FILE for the list."
        raise CommandError("check: -o needs --split", advice, USAGE)
    file = open_mesh(arguments.file, quiet=True)
    with in_file(arguments.file, file):
        faults, warnings = arguments.progress.do(
            f"checking {name_of(arguments.file)}", lambda: judge_file(file, arguments.depth)
        )
    lines = [*(f"fault: {fault}" for fault in faults), *lines_of_warnings(file), *(f"warning: {it}" for it in warnings)]
    lines.append(summary_of(file, name_of(arguments.file), len(faults), len(lines) - len(faults)))
    write_output(None, ["".join(f"{line}\n" for line in lines).encode("utf-8", "surrogateescape")])
    return REFUSED if faults else 0


def judge_file(file: ObjFile, depth: int | None) -> tuple[list[str], list[str]]:
    """Returns the faults of the mesh of a file, and the warnings. A depth is judged where there are no faults."""
    faults = sentences_of_faults(file)
    return faults, warnings_of(file, None if faults else depth)


def summary_of(file: ObjFile, name: str, faults: int, warnings: int) -> str:
    """Returns the last line: what the mesh is, and how much is listed."""
    listed_warnings = counted(warnings, "warning")
    if faults:
        return f"{name}: {counted(faults, 'fault')}, {listed_warnings}; `drillolive check --split` makes a manifold"
    sizes = f"{counted(len(file.points), 'point')}, {counted(len(file.face_sizes), 'face')}"
    return f"{name}: a manifold, {sizes}, {listed_warnings}"


def counted(count: int, noun: str) -> str:
    """Returns a count with its noun."""
    return f"{count} {noun}{'s' * (count != 1)}"


# ---- Splitting ----


def run_split(arguments: argparse.Namespace) -> int:
    """Writes the file with a manifold made of its mesh, and says on standard error what was done."""
    if arguments.depth is not None:
        raise CommandError("check: -d and --split exclude each other", "Check the file that is written with -d.", USAGE)
    name, file = name_of(arguments.file), open_mesh(arguments.file)
    # The numbers of a refusal here are those of the parted mesh, and not those of the file.
    with in_file(arguments.file):
        made = arguments.progress.do(f"splitting {name}", lambda: split_file(file))
    write_output(arguments.output, [text_of_split(file, made)])
    arguments.progress.end()
    for line in lines_on_split(file, made):
        print(f"drillolive: {name}: {line}", file=sys.stderr)
    return 0


def split_file(file: ObjFile) -> Split:
    """Returns the manifold that is made of the mesh of a file. Raises ObjError where the library refuses a line."""
    Mesh.from_obj(file.text)
    return split(len(file.points), file.face_sizes, file.corners, judge_faces)


def lines_on_split(file: ObjFile, made: Split) -> list[str]:
    """Returns what was done, in lines."""
    lines = []
    if made.left_out:
        faces = counted(len(made.left_out), "face")
        lines.append(
            f"{faces} left out, with fewer than three corners or a point twice: "
            f"{lines_of(file.face_lines[number] for number in made.left_out)}"
        )
    if made.origins:
        points = sorted(set(made.origins))
        parted = listed((point + 1 for point in points), "point", "points")
        lines.append(f"{counted(len(points), 'point')} parted, {counted(len(made.origins), 'point')} added: {parted}")
    return lines or ["the mesh is a manifold, and no face was changed"]
