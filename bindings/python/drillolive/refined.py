"""A refined level: its points, faces, edges, texture and origins."""

from __future__ import annotations

from fractions import Fraction
from functools import cached_property
from itertools import islice
from os import PathLike
from typing import Any, Iterator, NamedTuple

from ._calls import Handle, new_handle
from ._interface import Form, LevelCounts
from .arrays import Memory
from .faces import faces_in_rows
from .rows import TEXTURE, Rows


class Texture(NamedTuple):
    """The texture of a level: values, an array (n, 2) of doubles, and for each corner the number of its value."""

    values: Any
    corners: Any


class Origins(NamedTuple):
    """For each point the kind of the part of the mesh that it lies on, and the number of that part, counted from 0.

    Kind 0 is a point of the mesh, 1 an edge of its level 0, and 2 a face.
    """

    kinds: Any
    numbers: Any


def rows_in(values: Any) -> list[Any]:
    """Returns an array, or a list, as a list whose numbers are those of Python."""
    return values.tolist() if hasattr(values, "tolist") else values


class Refined:
    """A level of a mesh. Its points are exact inside: `points` are the nearest doubles, and `exact()` the fractions.

    Arrays are those of numpy, read-only and not copied, and keep the level. Without numpy they are lists.
    Points, faces, edges and corners are counted from 0. All but `points` is made when it is first asked for, once.
    """

    def __init__(self, rows: Rows, depth: int, seams: int | None) -> None:
        """Refines. `seams` is the number of the texture mode, or None for a mesh without texture."""
        self.depth = depth
        self.points: Any = rows.numbers_of_points(Form.doubles)
        self._rows = rows
        self._texture_rows = None if seams is None else Rows(rows.mesh, TEXTURE, (depth, seams))

    def __repr__(self) -> str:
        return f"<drillolive.Refined: depth {self.depth}, {len(self.points)} points>"

    # ---- Points ----

    @cached_property
    def _floats(self) -> Any:
        return self._rows.numbers_of_points(Form.floats)

    @cached_property
    def _exact(self) -> list[tuple[Fraction, ...]]:
        return self._rows.fractions()

    def floats(self) -> Any:
        """Returns the points as the nearest floats of 32 bits, an array (n, 3)."""
        return self._floats

    def exact(self) -> list[tuple[Fraction, ...]]:
        """Returns the points as tuples of three fractions in lowest terms."""
        return self._exact

    # ---- Faces and edges ----

    @cached_property
    def _level(self) -> Handle:
        return new_handle("level", "level_new", self._rows.mesh, self.depth)

    @cached_property
    def counts(self) -> LevelCounts:
        """How many points, edges, faces and corners there are."""
        return self._level.count(LevelCounts())

    @cached_property
    def face_sizes(self) -> Any:
        """How many corners each face has."""
        return self._array("face_sizes", "I", self.counts.faces)

    @cached_property
    def corners(self) -> Any:
        """The points of all corners, one face behind the other."""
        return self._array("corners", "I", self.counts.corners)

    @cached_property
    def edges(self) -> Any:
        """The two ends of each edge, an array (n, 2)."""
        return self._array("edges", "I", self.counts.edges, 2)

    @cached_property
    def holes(self) -> Any:
        """For each face 1 where it is a hole, else 0."""
        return self._array("holes", "B", self.counts.faces)

    @cached_property
    def faces(self) -> Any:
        """The points of each face: an array (m, k) where all faces have k corners, else a list of tuples.

        From depth 1 on all faces have four corners.
        """
        return faces_in_rows(self.face_sizes, self.corners)

    def _array(self, name: str, code: str, *shape: int) -> Any:
        return Memory(self._level.get(name), code, shape, self._level).array()

    # ---- OBJ ----

    def write_obj(self, path: str | PathLike[str]) -> None:
        """Writes the level as an OBJ file: points and texture as the nearest doubles, and faces without the holes.

        OSError: the file cannot be written.
        """
        with open(path, "w", encoding="ascii", newline="\n") as file:
            file.writelines(self.obj_lines())

    def obj_lines(self) -> Iterator[str]:
        """Gives the lines of `write_obj`, each with its line feed."""
        texture = self.uvs
        yield from (f"v {x!r} {y!r} {z!r}\n" for x, y, z in rows_in(self.points))
        if texture is not None:
            yield from (f"vt {u!r} {v!r}\n" for u, v in rows_in(texture.values))
        values = None if texture is None else iter(rows_in(texture.corners))
        corners = iter(rows_in(self.corners))
        for size, is_hole in zip(rows_in(self.face_sizes), rows_in(self.holes)):
            words = [str(point + 1) for point in islice(corners, size)]
            if values is not None:
                words = [f"{point}/{value + 1}" for point, value in zip(words, islice(values, size))]
            if not is_hole:
                yield f"f {' '.join(words)}\n"

    # ---- Origins ----

    @cached_property
    def _origins(self) -> Handle:
        return new_handle("origins", "origins_new", self._rows.mesh, self.depth)

    @cached_property
    def face_parents(self) -> Any:
        """The face of the mesh from which each face comes."""
        origins = self._origins
        return Memory(origins.get("face_parents"), "I", (origins.get("faces"),), origins).array()

    @cached_property
    def point_origins(self) -> Origins:
        """Where each point lies on the mesh."""
        origins = self._origins
        shape = (origins.get("points"),)
        kinds = Memory(origins.get("kinds"), "B", shape, origins)
        return Origins(kinds.array(), Memory(origins.get("numbers"), "I", shape, origins).array())

    # ---- Texture ----

    @cached_property
    def uvs(self) -> Texture | None:
        """The texture of the level, or None where the mesh has none."""
        rows = self._texture_rows
        if rows is None:
            return None
        level = new_handle("level", "level_new_texture", rows.mesh, *rows.numbers)
        corners = Memory(level.get("corners"), "I", (level.count(LevelCounts()).corners,), level)
        return Texture(rows.numbers_of_points(Form.doubles), corners.array())

    @cached_property
    def _exact_uvs(self) -> list[tuple[Fraction, ...]] | None:
        return self._texture_rows.fractions() if self._texture_rows else None

    def exact_uvs(self) -> list[tuple[Fraction, ...]] | None:
        """Returns the values of the texture as tuples of two fractions, or None where the mesh has no texture."""
        return self._exact_uvs
