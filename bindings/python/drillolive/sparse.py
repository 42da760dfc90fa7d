"""Sparse levels: of each level the faces near those that are refined further."""

from __future__ import annotations

from collections.abc import Sequence
from fractions import Fraction
from functools import cached_property
from typing import Any, Tuple

from ._calls import Handle, new_handle, place_in
from ._interface import Form, SparseCounts
from .arrays import CODES, Memory
from .exact import fractions_at
from .faces import faces_in_rows

# What each number of `SparseLevel.kinds` says of a face: it is a hole; the child of a face that is not selected;
# selected itself, and so refined; or refined no further.
FACE_KINDS = ("hole", "outer", "selected", "leaf")

WIDE_SIZE = 16

# Where some items of an array begin, and how many they are.
Span = Tuple[int, int]


class SparseLevel:
    """One of the sparse levels of a mesh. Its arrays are read-only, and keep all levels.

    `kinds` has the number of a word of `FACE_KINDS` for each face, and `numbers` its number in the whole level, from
    0. `corners` count the points of this level, from 0. `points` are the nearest doubles, an array (n, 3).
    """

    def __init__(self, levels: SparseLevels, points: Span, faces: Span, corners: Span) -> None:
        """Notes where the points, the faces and the corners of the level begin, and how many there are."""
        self._levels, self._points, self._faces, self._corners = levels, points, faces, corners

    @cached_property
    def points(self) -> Any:
        """The points as the nearest doubles, an array (n, 3)."""
        return self._levels.points_part(Form.doubles, self._points)

    @cached_property
    def _exact(self) -> list[tuple[Fraction, ...]]:
        return self._levels.fractions_part(self._points)

    def exact(self) -> list[tuple[Fraction, ...]]:
        """Returns the points as tuples of three fractions in lowest terms."""
        return self._exact

    @cached_property
    def kinds(self) -> Any:
        """What each face is: the number of a word of `FACE_KINDS`."""
        return self._levels.part("kinds", "B", self._faces)

    @cached_property
    def numbers(self) -> Any:
        """The number of each face in the whole level, counted from 0."""
        return self._levels.part("numbers", "Q", self._faces)

    @cached_property
    def face_sizes(self) -> Any:
        """How many corners each face has."""
        return self._levels.part("face_sizes", "I", self._faces)

    @cached_property
    def corners(self) -> Any:
        """The points of all corners, one face behind the other."""
        return self._levels.part("corners", "I", self._corners)

    @cached_property
    def faces(self) -> Any:
        """The points of each face: an array (m, k) where all faces have k corners, else a list of tuples."""
        return faces_in_rows(self.face_sizes, self.corners)


class SparseLevels(Sequence["SparseLevel"]):
    """The sparse levels of a mesh, from level 0 on."""

    def __init__(self, mesh: Handle, depth: int, select: int) -> None:
        """Refines from level 0 to a depth. `select` is the number of the rule that selects faces."""
        self._mesh, self._depth, self._select = mesh, depth, select
        self._handle = self._refine(Form.doubles)
        self.counts = self._handle.count(SparseCounts())
        self._list = self._levels()

    def __len__(self) -> int:
        return len(self._list)

    def __getitem__(self, place: Any) -> Any:
        if isinstance(place, slice):
            return self._list[place]
        return self._list[place_in(place, "level", len(self._list))]

    def part(self, name: str, code: str, span: Span) -> Any:
        """Returns a part of an array of all levels: where it begins, and how many items it has."""
        return Memory(self._handle.get(name), code, (0,), self._handle).part(*span).array()

    def points_part(self, form: Form, span: Span) -> Any:
        """Returns some of the points of all levels, an array (n, 3)."""
        return Memory(self._handle.get(form.name), CODES[form], (0, 3), self._handle).part(*span).array()

    def fractions_part(self, span: Span) -> list[tuple[Fraction, ...]]:
        """Returns some of the points of all levels as fractions."""
        start, count = span
        numerators, denominators = self._exact_handle.get("numerators"), self._exact_handle.get("denominators")
        if not count:
            return []
        return fractions_at(numerators + 3 * WIDE_SIZE * start, denominators + WIDE_SIZE * start, count, 3)

    @cached_property
    def _exact_handle(self) -> Handle:
        return self._refine(Form.exact)

    def _refine(self, form: Form) -> Handle:
        return new_handle("sparse", "sparse_new", self._mesh, self._depth, self._select, form.value)

    def _numbers(self, name: str, count: int) -> list[int]:
        return Memory(self._handle.get(name), "I", (count,), self._handle).numbers()

    def _levels(self) -> list[SparseLevel]:
        levels, sizes = [], self._numbers("face_sizes", self.counts.faces)
        point = face = corner = 0
        pairs = zip(self._numbers("level_points", self.counts.levels), self._numbers("level_faces", self.counts.levels))
        for points, faces in pairs:
            corners = sum(sizes[face : face + faces])
            levels.append(SparseLevel(self, (point, points), (face, faces), (corner, corners)))
            point, face, corner = point + points, face + faces, corner + corners
        return levels
