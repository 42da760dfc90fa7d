"""Writes a level as OBJ text, with the objects, groups, materials and texture of the file that it was refined from."""

from __future__ import annotations

from collections.abc import Iterable, Iterator, Sequence
from dataclasses import dataclass, field
from typing import Any

from .normals import point_normals
from .numbers import BLOCK, NumberForm
from .obj_file import ObjFile, Setting, encode

# The keyword of each part of a setting, in the order in which they are written.
KEYWORDS = {"object": "o", "groups": "g", "material": "usemtl", "smoothing": "s"}


@dataclass
class Surface:
    """A level of the mesh of a file, without its points. Corners are counted from 0, face by face."""

    file: ObjFile
    depth: int
    form: NumberForm
    corners: list[int]
    sizes: Sequence[int]
    holes: Sequence[int]  # for each face 1 where it is a hole and not written, else 0
    textured: list[bool]  # for each face of the file whether it has texture
    values: Any = ()  # the rows of the texture values
    texture_corners: list[int] = field(default_factory=list)
    tags: list[str] = field(default_factory=list)
    has_normals: bool = False


@dataclass
class FaceRun:
    """Faces that stand together and are written alike. `first` is where their corners begin."""

    first: int
    size: int
    setting: int
    textured: bool
    count: int

    @property
    def end(self) -> int:
        """Where the corners of the run end."""
        return self.first + self.size * self.count

    def continues(self, other: FaceRun) -> bool:
        """Tells whether this run goes on where the other ends, and is written as it is."""
        alike = (self.size, self.setting, self.textured) == (other.size, other.setting, other.textured)
        return alike and self.first == other.end


def text_of_surface(
    surface: Surface, points: Any, rows: Sequence[Any], faces: Iterable[str] | None = None
) -> Iterator[bytes]:
    """Gives the text of a level in parts.

    The points, as doubles, serve for the normals. The rows are those of `v` lines: coordinates, and a colour where
    there is one. The lines of faces may be given where they were made before.
    """
    yield from map(encode, text_before_faces(surface, rows))
    if surface.has_normals:
        normals = point_normals(points, surface.sizes, surface.corners)
        yield from map(encode, NumberForm(digits=surface.form.digits).lines("vn", normals))
    yield from map(encode, text_of_faces(surface) if faces is None else faces)
    yield from map(encode, (tag + "\n" for tag in surface.tags))


def text_before_faces(surface: Surface, rows: Sequence[Any]) -> Iterator[str]:
    """Gives the `mtllib`, `v` and `vt` lines."""
    for library in surface.file.libraries:
        yield f"mtllib {library}\n"
    for part in parts_of_one_length(rows):
        yield from surface.form.lines("v", part)
    yield from surface.form.lines("vt", surface.values)


def parts_of_one_length(rows: Any) -> Iterator[Any]:
    """Divides rows where their lengths change, as where some points have a colour and others have none."""
    if hasattr(rows, "ravel"):
        yield rows
        return
    first = 0
    for place in range(1, len(rows)):
        if len(rows[place]) != len(rows[first]):
            yield rows[first:place]
            first = place
    yield rows[first:]


def text_of_faces(surface: Surface) -> Iterator[str]:
    """Gives the `f` lines, and before them the lines that say where another setting begins."""
    current = Setting()
    columns = [[number + 1 for number in surface.corners], [number + 1 for number in surface.texture_corners]]
    for run in face_runs(surface):
        setting = surface.file.settings[run.setting]
        yield from lines_of_setting(current, setting)
        current = setting
        yield from lines_of_run(run, columns, surface.has_normals)


def face_runs(surface: Surface, with_holes: bool = False) -> list[FaceRun]:
    """Returns the faces of a level in runs. The children of a face of the file stand together."""
    file = surface.file
    runs: list[FaceRun] = []
    face = corner = 0
    for size, setting, textured in zip(file.face_sizes, file.face_groups, surface.textured):
        count, size = (1, size) if surface.depth == 0 else (size * 4 ** (surface.depth - 1), 4)
        run = FaceRun(corner, size, setting, textured, count)
        if with_holes or not surface.holes[face]:
            if runs and run.continues(runs[-1]):
                runs[-1].count += count
            else:
                runs.append(run)
        face, corner = face + count, run.end
    return runs


def lines_of_setting(current: Setting, setting: Setting) -> Iterator[str]:
    """Gives the lines by which one setting follows on another."""
    for part, keyword in KEYWORDS.items():
        words = getattr(setting, part)
        if words is not None and words != getattr(current, part):
            yield f"{keyword} {words}".rstrip() + "\n"


def lines_of_run(run: FaceRun, columns: list[list[int]], has_normals: bool) -> Iterator[str]:
    """Gives the `f` lines of a run in blocks. The columns are the points and the values of all corners, from 1."""
    points, values = columns
    kept = [points, *([values] if run.textured else []), *([points] if has_normals else [])]
    corner = {1: " %d", 2: " %d/%d" if run.textured else " %d//%d", 3: " %d/%d/%d"}[len(kept)]
    line = "f" + corner * run.size + "\n"
    step = BLOCK * run.size
    for first in range(run.first, run.end, step):
        end = min(first + step, run.end)
        numbers = [0] * (len(kept) * (end - first))
        for place, column in enumerate(kept):
            numbers[place :: len(kept)] = column[first:end]
        yield line * ((end - first) // run.size) % tuple(numbers)
