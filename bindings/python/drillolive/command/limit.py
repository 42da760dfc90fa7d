"""The command `limit`: writes a level whose points lie where refinement takes them in the end."""

from __future__ import annotations

import argparse

from .surface import add_surface_arguments, run_surface


def add_arguments(parser: argparse.ArgumentParser) -> None:
    """Adds the options of the command."""
    add_surface_arguments(parser, least_depth=1)


def run(arguments: argparse.Namespace) -> int:
    """Refines the mesh of a file to its limit points."""
    return run_surface(arguments, lambda mesh, depth, mode: mesh.limit(depth, mode))
