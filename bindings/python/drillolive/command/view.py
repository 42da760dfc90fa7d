"""The command `view`: writes a page that shows the levels of a mesh in a browser."""

from __future__ import annotations

import argparse
import sys
from pathlib import Path

from ..view.page import page_of
from ..view.scene import Request, Scene, scene_of
from .explain import in_file
from .numbers import whole
from .opening import DEPTH_LIMIT, add_file_argument, add_round_argument, open_mesh
from .output import STANDARD, write_output
from .source import name_of
from .surface import add_texture_argument

DEFAULT_DEPTH = 2


def add_arguments(parser: argparse.ArgumentParser) -> None:
    """Adds the options of the command."""
    add_file_argument(parser)
    text = f"the greatest number of steps: 0 to {DEPTH_LIMIT}; {DEFAULT_DEPTH} is the default"
    parser.add_argument("-d", "--depth", type=whole(0, DEPTH_LIMIT), default=DEFAULT_DEPTH, metavar="N", help=text)
    text = "the page; without it MESH.html beside MESH.obj, and with - standard output"
    parser.add_argument("-o", "--output", metavar="FILE", help=text)
    text = "the axis that points up at first: y (default) or z"
    parser.add_argument("--up", choices=("y", "z"), default="y", help=text)
    add_texture_argument(parser)
    add_round_argument(parser)


def run(arguments: argparse.Namespace) -> int:
    """Writes the page of the mesh of a file, and prints its name where the command chose it."""
    file = open_mesh(arguments.file, arguments.round)
    name = name_of(arguments.file)
    request = Request(Path(name).name, arguments.depth, arguments.uv, arguments.up)
    with in_file(arguments.file, file):
        scene: Scene = arguments.progress.do(f"refining {name}", lambda: scene_of(file, request))
    output = arguments.output or page_beside(arguments.file)
    arguments.progress.say(f"writing {output}")
    write_output(output, [page_of(scene).encode()])
    arguments.progress.end()
    if len(scene["levels"]) <= arguments.depth:
        print(f"drillolive: {name}: the page ends at level {len(scene['levels']) - 1}, and says why", file=sys.stderr)
    if output not in (arguments.output, STANDARD):
        print(output)
    return 0


def page_beside(path: str | None) -> str:
    """Returns the name of the page of a mesh, never that of the mesh itself.

    The page of standard input goes to standard output.
    """
    if path is None or path == STANDARD:
        return STANDARD
    page = Path(path).with_suffix(".html")
    return str(page) if page != Path(path) else f"{path}.html"
