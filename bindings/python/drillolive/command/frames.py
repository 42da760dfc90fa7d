"""The command `frames`: refines poses of one mesh by one table, and writes a file for each."""

from __future__ import annotations

import argparse
import re
from collections.abc import Iterator
from typing import Any

from .. import Mesh
from .colours import colours_of, with_colours
from .explain import in_file
from .failure import USAGE, CommandError
from .numbers import NumberForm, add_digits_argument
from .obj_file import ObjFile
from .obj_text import text_of_faces, text_of_surface
from .opening import add_depth_argument, open_file, open_mesh, output_path
from .output import write_output
from .request import Request
from .source import name_of
from .surface import add_look_arguments, make_level

PATTERN = re.compile(r"%(0[1-9])?d")


def add_arguments(parser: argparse.ArgumentParser) -> None:
    """Adds the options of the command."""
    parser.add_argument("rest", metavar="REST", help="the OBJ file of the mesh: its faces, tags, texture and names")
    text = "OBJ files of poses: the same number of points, and the same faces or none"
    parser.add_argument("poses", nargs="+", metavar="POSE", help=text)
    add_depth_argument(parser)
    text = "the output files, with the number of the pose from 1, as in out_%%04d.obj"
    parser.add_argument("-o", "--output", metavar="PATTERN", type=output_path, required=True, help=text)
    add_digits_argument(parser)
    add_look_arguments(parser)


def run(arguments: argparse.Namespace) -> int:
    """Refines the poses."""
    names = names_of_frames(arguments.output, len(arguments.poses))
    progress = arguments.progress
    rest = open_mesh(arguments.rest, arguments.round)
    with in_file(arguments.rest, rest):
        label = f"making the table of {name_of(arguments.rest)}"
        frames = progress.do(label, lambda: Frames(rest, arguments))
    for number, (pose, name) in enumerate(zip(arguments.poses, names), 1):
        label = f"refining {name_of(pose)}, {number} of {len(names)}"
        points = progress.do(label, lambda: frames.points_of(pose, arguments.round))
        progress.say(f"writing {name}")
        write_output(name, frames.text_of(points))
    return 0


def names_of_frames(pattern: str, count: int) -> list[str]:
    """Returns the file of each frame. Raises CommandError where the pattern does not tell several frames apart."""
    if len(PATTERN.findall(pattern)) > 1 or (count > 1 and not PATTERN.search(pattern)):
        advice = "Put one number into it, as in -o out_%04d.obj."
        raise CommandError(f"{pattern}: this pattern does not number {count} frames", advice, USAGE)
    return [PATTERN.sub(lambda place: place.group() % number, pattern) for number in range(1, count + 1)]


class Frames:
    """A mesh at rest with its table, and all lines of its level but those of points and normals."""

    def __init__(self, rest: ObjFile, arguments: argparse.Namespace) -> None:
        """Makes the table. Raises drillolive.Error where the mesh cannot be refined so."""
        form = NumberForm(digits=arguments.digits)
        request = Request(arguments.depth, Mesh.refine, form, arguments.uv, with_normals=arguments.normals)
        self.name = name_of(arguments.rest)
        self.rest = rest
        self.table = Mesh.from_obj(rest.text).table(arguments.depth)
        self.surface, _, _ = make_level(rest, request)
        self.colours = colours_of(rest, request)
        # The lines of faces are the longest part, and all frames have the same.
        self.faces = list(text_of_faces(self.surface))

    def points_of(self, path: str, decimals: int | None) -> Any:
        """Returns the points of a frame. Raises CommandError where the pose is none of the mesh at rest."""
        pose = open_file(path, decimals, quiet=True)
        with in_file(path, pose):
            mesh = Mesh.from_obj(pose.text)
        faces = pose.face_sizes, pose.corners
        if len(pose.points) != len(self.rest.points):
            what = f"{len(pose.points)} points, and {self.name} has {len(self.rest.points)}"
        elif pose.face_sizes and faces != (self.rest.face_sizes, self.rest.corners):
            what = f"other faces than {self.name}"
        else:
            return self.table @ mesh.points
        raise CommandError(f"{name_of(path)}: it has {what}", "Export all poses of one mesh in the same way.")

    def text_of(self, points: Any) -> Iterator[bytes]:
        """Gives the text of a frame in parts."""
        return text_of_surface(self.surface, points, with_colours(points, self.colours), self.faces)
