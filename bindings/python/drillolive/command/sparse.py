"""The command `sparse`: writes the levels of a mesh with the faces near features alone."""

from __future__ import annotations

import argparse
from collections.abc import Iterable, Iterator
from fractions import Fraction

from .explain import in_file
from .numbers import NumberForm, add_number_arguments, number_form
from .opening import (
    add_depth_argument,
    add_file_argument,
    add_output_argument,
    add_round_argument,
    open_mesh,
)
from .output import write_result
from .program import answer_of
from .source import name_of
from .sparse_texture import without_stand_ins
from .texture import MODES, NO_TEXTURE, with_stand_ins

# The words of the program for what is selected.
SELECTIONS = {"features": "feature", "all": "all"}


def add_arguments(parser: argparse.ArgumentParser) -> None:
    """Adds the options of the command."""
    add_file_argument(parser)
    add_depth_argument(parser)
    add_output_argument(parser)
    add_number_arguments(parser)
    text = "the faces that are refined: features (default) faces at features, all every face except holes"
    parser.add_argument("--select", choices=SELECTIONS, default="features", help=text)
    text = "the texture points that stay fixed: smooth none, corners, boundaries, linear all; none (default) writes no texture"
    parser.add_argument("--uv", choices=MODES, default=NO_TEXTURE, help=text)
    add_round_argument(parser)


def run(arguments: argparse.Namespace) -> int:
    """Refines the mesh of a file near its features."""
    file = open_mesh(arguments.file, arguments.round)
    words = ["sparse", f"depth={arguments.depth}", f"select={SELECTIONS[arguments.select]}", f"uv={arguments.uv}"]
    stand_in = file if arguments.uv == NO_TEXTURE else with_stand_ins(file)
    label = f"refining {name_of(arguments.file)}"
    with in_file(arguments.file, file):
        answer = arguments.progress.do(label, lambda: answer_of(words, stand_in.text))
    lines = answer.splitlines(keepends=True)
    if stand_in is not file:
        lines = list(without_stand_ins(lines, file))
    write_result(arguments, in_form(lines, number_form(arguments)))
    return 0


def in_form(lines: Iterable[str], form: NumberForm) -> Iterator[bytes]:
    """Gives lines, of which `v` and `vt` lines have exact numbers, with their numbers in another form."""
    for line in lines:
        keyword, _, rest = line.partition(" ")
        if keyword in ("v", "vt"):
            line = f"{keyword} {' '.join(form.word(Fraction(word)) for word in rest.split())}\n"
        yield line.encode()
