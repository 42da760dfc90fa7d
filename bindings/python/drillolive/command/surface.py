"""What `refine`, `limit` and `frames` share: a level of the mesh of a file, ready to be written."""

from __future__ import annotations

import argparse
from collections.abc import Sequence
from typing import Any

from ..refined import Refined
from .colours import colours_of, with_colours
from .explain import in_file
from .numbers import add_number_arguments, number_form, plain
from .obj_file import ObjFile
from .obj_text import Surface, text_of_surface
from .opening import (
    add_depth_argument,
    add_file_argument,
    add_output_argument,
    add_round_argument,
    open_mesh,
)
from .output import write_result
from .request import Refine, Request
from .source import name_of
from .tags import tag_lines
from .texture import DEFAULT_MODE, MODES, NO_TEXTURE, textured_faces, with_stand_ins, without_stand_ins


def add_surface_arguments(parser: argparse.ArgumentParser, least_depth: int = 0) -> None:
    """Adds the options of commands that write one level."""
    add_file_argument(parser)
    add_depth_argument(parser, least_depth)
    add_output_argument(parser)
    add_number_arguments(parser)
    add_look_arguments(parser)


def add_texture_argument(parser: argparse.ArgumentParser) -> None:
    """Adds the option that says what stays fixed of texture."""
    text = "the texture points that stay fixed: smooth none, corners, boundaries (default), linear all; none drops the texture"
    parser.add_argument("--uv", choices=MODES, default=DEFAULT_MODE, help=text)


def add_look_arguments(parser: argparse.ArgumentParser) -> None:
    """Adds the options that say what is written beside the points."""
    add_texture_argument(parser)
    parser.add_argument("--normals", action="store_true", help="write vn lines: at each point the mean normal of its faces")
    add_round_argument(parser)


def run_surface(arguments: argparse.Namespace, refine: Refine, with_tags: bool = False) -> int:
    """Refines the mesh of a file and writes the level."""
    form = number_form(arguments)
    request = Request(arguments.depth, refine, form, arguments.uv, with_tags, arguments.normals)
    file = open_mesh(arguments.file, arguments.round)
    label = f"refining {name_of(arguments.file)} to depth {request.depth}"
    with in_file(arguments.file, file):
        surface, points, rows = arguments.progress.do(label, lambda: make_level(file, request))
    write_result(arguments, text_of_surface(surface, points, rows))
    return 0


def make_level(file: ObjFile, request: Request) -> tuple[Surface, Any, Sequence[Any]]:
    """Returns a level, its points as doubles, and the rows of its `v` lines."""
    stand_in = file if request.mode == NO_TEXTURE else with_stand_ins(file)
    level = request.refined(stand_in.text)
    surface = surface_of(file, level, request, has_stand_ins=stand_in is not file)
    rows = level.exact() if request.form.exact else level.points
    return surface, level.points, with_colours(rows, colours_of(file, request))


def surface_of(file: ObjFile, level: Refined, request: Request, has_stand_ins: bool) -> Surface:
    """Returns all of a level but its points. Faces that have stand-in values are written without texture."""
    uvs = None if request.mode == NO_TEXTURE else level.uvs
    surface = Surface(
        file=file,
        depth=request.depth,
        form=request.form,
        corners=plain(level.corners),
        sizes=level.face_sizes,
        holes=bytes(len(level.face_sizes)) if request.with_tags else level.holes,
        textured=textured_faces(file) if uvs else [False] * len(file.face_sizes),
        tags=tag_lines(file, request.depth) if request.with_tags else [],
        has_normals=request.with_normals,
    )
    if uvs:
        surface.values = level.exact_uvs() if request.form.exact else uvs.values
        surface.texture_corners = plain(uvs.corners)
    return without_stand_ins(surface) if has_stand_ins and uvs else surface
