"""The command `refine`: writes the mesh after some steps."""

from __future__ import annotations

import argparse

from .surface import add_surface_arguments, run_surface


def add_arguments(parser: argparse.ArgumentParser) -> None:
    """Adds the options of the command."""
    add_surface_arguments(parser)
    parser.add_argument("--tags", action="store_true", help="write the sharpness and the holes of the level as t lines")


def run(arguments: argparse.Namespace) -> int:
    """Refines the mesh of a file."""
    return run_surface(arguments, lambda mesh, depth, mode: mesh.refine(depth, mode), arguments.tags)
