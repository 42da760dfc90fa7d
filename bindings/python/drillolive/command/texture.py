"""Gives faces without texture corners values of their own, so that they do not take the texture of other faces away."""

from __future__ import annotations

from dataclasses import replace

from .numbers import as_rows
from .obj_edit import with_lines
from .obj_file import ObjFile, encode
from .obj_text import Surface, face_runs

DEFAULT_MODE, NO_TEXTURE = "boundaries", "none"
MODES = ("smooth", "corners", "boundaries", "linear", NO_TEXTURE)


def textured_faces(file: ObjFile) -> list[bool]:
    """Returns for each face whether it has texture corners. All corners of a line have one, or none has."""
    textured, first = [], 0
    for size in file.face_sizes:
        textured.append(file.texture_corners[first] is not None)
        first += size
    return textured


def with_stand_ins(file: ObjFile) -> ObjFile:
    """Returns a file whose text has texture corners everywhere, where some of its faces have them and others have none.

    A stand-in value belongs to one point, and no face that has texture names it. So the rim between is a seam.
    """
    textured = textured_faces(file)
    if all(textured) or not any(textured):
        return file
    stand_ins: dict[int, int] = {}  # the number of the value of each point, from 1
    numbers, lines, first = [], [], 0
    for has_texture, size, number in zip(textured, file.face_sizes, file.face_lines):
        if not has_texture:
            points = file.corners[first : first + size]
            values = [stand_ins.setdefault(point, len(file.values) + len(stand_ins) + 1) for point in points]
            lines.append("f " + " ".join(f"{point + 1}/{value}" for point, value in zip(points, values)))
            numbers.append(number)
        first += size
    text = with_lines(file.text, numbers, lines) + b"\n" + encode("vt 0 0\n" * len(stand_ins))
    return replace(file, text=text)


def without_stand_ins(surface: Surface) -> Surface:
    """Returns the surface with the values alone that faces with texture name."""
    corners = surface.texture_corners
    used = bytearray(len(surface.values))
    for run in face_runs(surface, with_holes=True):
        if run.textured:
            for value in corners[run.first : run.end]:
                used[value] = 1
    numbers, kept = [], []
    for row, is_used in zip(as_rows(surface.values), used):
        numbers.append(len(kept))
        if is_used:
            kept.append(row)
    return replace(surface, values=kept, texture_corners=[numbers[value] for value in corners])
