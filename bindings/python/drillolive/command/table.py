"""The command `table`: writes how each point of a level is made of the points of the mesh."""

from __future__ import annotations

import argparse
from pathlib import Path

from .. import Mesh
from ..table import Table
from .explain import in_file
from .failure import USAGE, CommandError
from .opening import add_depth_argument, add_file_argument, open_mesh
from .output import STANDARD, whole_file, write_result
from .source import name_of

ARRAYS, TEXT = ".npz", ".txt"


def add_arguments(parser: argparse.ArgumentParser) -> None:
    """Adds the options of the command."""
    add_file_argument(parser)
    add_depth_argument(parser)
    text = "the output file: .npz for arrays, .txt for exact text; without it, text on standard output"
    parser.add_argument("-o", "--output", metavar="FILE", help=text)


def run(arguments: argparse.Namespace) -> int:
    """Makes the table of the mesh of a file."""
    output = arguments.output
    kind = TEXT if output in (None, STANDARD) else Path(output).suffix
    if kind not in (ARRAYS, TEXT):
        raise CommandError(f"{output}: a table has no such form", f"Say -o NAME{ARRAYS} or -o NAME{TEXT}.", USAGE)
    file = open_mesh(arguments.file)
    with in_file(arguments.file, file):
        label = f"making the table of {name_of(arguments.file)}"
        table: Table = arguments.progress.do(label, lambda: Mesh.from_obj(file.text).table(arguments.depth))
    if kind == TEXT:
        write_result(arguments, [arguments.progress.do(label, table.text).encode()])
        return 0
    with whole_file(output) as path:
        arguments.progress.do("writing", lambda: table.save(path))
    return 0
