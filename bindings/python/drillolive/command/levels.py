"""The command `levels`: writes a table of counts of the levels of a mesh."""

from __future__ import annotations

import argparse

from .explain import in_file
from .opening import add_depth_argument, add_file_argument, add_output_argument, open_mesh
from .output import write_result
from .program import answer_of
from .source import name_of

HEADINGS = {"boundary": "boundary edges", "sharp": "sharp edges", "extraordinary": "extraordinary points"}


def add_arguments(parser: argparse.ArgumentParser) -> None:
    """Adds the options of the command."""
    add_file_argument(parser)
    add_depth_argument(parser)
    add_output_argument(parser)


def run(arguments: argparse.Namespace) -> int:
    """Counts the levels of the mesh of a file."""
    file = open_mesh(arguments.file)
    words = ["levels", f"depth={arguments.depth}"]
    with in_file(arguments.file, file):
        text = arguments.progress.do(f"counting {name_of(arguments.file)}", lambda: answer_of(words, file.text))
    write_result(arguments, [table_of_counts(text).encode()])
    return 0


def table_of_counts(text: str) -> str:
    """Returns a table with a row for each line, whose words are names and counts by turns."""
    rows = [line.split() for line in text.splitlines()]
    names = [HEADINGS.get(name, name) for name in rows[0][::2]]
    table = [names, *([f"{int(count):,}" for count in row[1::2]] for row in rows)]
    widths = [max(map(len, column)) for column in zip(*table)]
    return "".join("  ".join(word.rjust(width) for word, width in zip(row, widths)) + "\n" for row in table)
