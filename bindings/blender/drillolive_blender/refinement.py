"""Refines a cage by the library: its points, UV maps, and other numbers of its points."""

from __future__ import annotations

from bisect import bisect_left
from concurrent.futures import ThreadPoolExecutor
from dataclasses import dataclass
from functools import cached_property
from math import ceil
from types import ModuleType
from typing import Any

import numpy as np

from .meshes import Cage, edge_numbers
from .settings import BOUNDARY_MODES, GRID_BITS, UV_MODES, Settings, triangle_count
from .textures import SharedValues, UvMap, share_values
from .words import counted

# A table takes at most so many numbers for each point.
COLUMNS = 16

# Limit points are taken from a greater depth where that takes at most so many faces.
MOST_LIMIT_FACES = 2**20
GREATEST_DEPTH = 10

# The finest step of a sharpness that the library takes is 2^-60. A crease below 0.000001 alone has a finer one.
SHARPNESS_BITS = 60

# From this sharpness on an edge or a point is infinitely sharp.
INFINITE = 10.0

ON_EDGE, ON_FACE = 1, 2


@dataclass
class Changes:
    """How many numbers a grid changed: coordinates, UVs and sharpnesses."""

    coordinates: int = 0
    uvs: int = 0
    sharpnesses: int = 0

    def text(self) -> str:
        """Returns the counts as words."""
        counts = {"coordinate": self.coordinates, "UV": self.uvs, "crease": self.sharpnesses}
        return ", ".join(counted(count, name) for name, count in counts.items() if count) or "nothing"


def sharpness_of(creases: np.ndarray) -> np.ndarray:
    """Returns the sharpness of creases from 0 to 1, in floats of 32 bits as the modifier has it."""
    return (creases * creases * np.float32(INFINITE)).astype(np.float64)


def crease_of(sharpness: np.ndarray) -> np.ndarray:
    """Returns the creases of a sharpness."""
    return np.sqrt(np.minimum(sharpness, INFINITE) / INFINITE)


def left_after(creases: np.ndarray, depth: int) -> np.ndarray:
    """Returns the creases that are left of creases after so many steps, of which each takes 1 off the sharpness."""
    sharpness = sharpness_of(creases)
    return crease_of(np.where(sharpness < INFINITE, np.maximum(sharpness - depth, 0), sharpness))


def on_grid(numbers: np.ndarray, bits: int) -> np.ndarray:
    """Returns numbers rounded to multiples of 2^-bits, of two as near to the even one."""
    return np.rint(numbers.astype(np.float64) * 2.0**bits) / 2.0**bits


class Refinement:
    """A cage that is refined. `level` is the library's level, and `points` (n, 3) are its points or their limits.

    Limit points that are semi-sharp at the depth are taken from a greater depth, where points keep their numbers. What
    is made beside the points is made when it is first asked for, once.
    """

    def __init__(self, library: ModuleType, cage: Cage, settings: Settings) -> None:
        """Refines. The library's Error: it refuses."""
        self._library, self._cage, self._settings = library, cage, settings
        self.changes = Changes()
        self._creases, self._corners = self._tags(cage.edge_creases), self._tags(cage.point_creases)
        self._shared = [share_values(uv_map, cage.corners, cage.sizes) for uv_map in cage.uv_maps]
        self._mesh = self._new_mesh(self._shared[0] if self._shared else None)
        self._limit_depth = self._depth_of_limits() if settings.limit else None
        make = self._mesh.limit if self._limit_depth == settings.depth else self._mesh.refine
        self.level = make(settings.depth, UV_MODES[settings.uv_smooth])
        self.points = self.level.points
        if self._limit_depth not in (None, settings.depth):
            self.points = self._mesh.limit(self._limit_depth).points[: len(self.points)]
        # The library makes the faces in another thread while it makes UV maps in this one.
        with ThreadPoolExecutor(1) as pool:
            pool.submit(lambda: self.level.corners)
            self.uv_maps = [self._refined_map(place) for place in range(len(cage.uv_maps))]

    # ---- Meshes of the library ----

    def _rounded(self, numbers: np.ndarray) -> tuple[np.ndarray, int]:
        """Returns numbers on the grid, if there is one, and how many changed."""
        if self._settings.grid_bits is None:
            return numbers, 0
        rounded = on_grid(numbers, self._settings.grid_bits)
        return rounded, int((rounded != numbers).sum())

    def _tags(self, creases: np.ndarray) -> np.ndarray:
        """Returns the sharpness of creases, 0 where the settings leave them out."""
        if not self._settings.use_creases:
            return np.zeros(len(creases))
        sharpness, changed = self._rounded(sharpness_of(creases))
        self.changes.sharpnesses += changed
        return on_grid(sharpness, SHARPNESS_BITS)

    def _new_mesh(self, shared: SharedValues | None, is_shape: bool = True) -> Any:
        """Returns a mesh of the library. Without `is_shape` its points are 0, as for what depends on faces alone."""
        cage, settings = self._cage, self._settings
        sharp_edges, sharp_points = np.flatnonzero(self._creases), np.flatnonzero(self._corners)
        uvs = None
        if shared:
            values, changed = self._rounded(shared.values)
            self.changes.uvs += changed
            uvs = (values, shared.corners)
        made = self._library.Mesh(
            cage.points if is_shape else np.zeros_like(cage.points),
            (cage.sizes, cage.corners),
            creases=zip(*cage.edges[sharp_edges].T.tolist(), self._creases[sharp_edges].tolist()),
            corners=zip(sharp_points.tolist(), self._corners[sharp_points].tolist()),
            uvs=uvs,
            boundary=BOUNDARY_MODES[settings.boundary_smooth],
            grid_bits=settings.grid_bits,
        )
        self.changes.coordinates += made.rounded
        return made

    def _depth_of_limits(self) -> int:
        """Returns the least depth at which nothing is semi-sharp, or that of the settings where it is too great."""
        sharpness = np.concatenate([self._creases, self._corners])
        greatest = sharpness[sharpness < INFINITE].max(initial=0)
        depth = max(self._settings.depth, ceil(greatest))
        is_small = depth <= GREATEST_DEPTH and triangle_count(len(self._cage.corners), depth) <= 2 * MOST_LIMIT_FACES
        return depth if is_small else self._settings.depth

    # ---- UV maps ----

    def _refined_map(self, place: int) -> UvMap:
        """Returns a UV map of the level. The first one comes with the level, and each other of a mesh of its own."""
        level = self.level
        if place:
            mesh = self._new_mesh(self._shared[place], False)
            level = mesh.refine(self._settings.depth, UV_MODES[self._settings.uv_smooth])
        return UvMap(self._cage.uv_maps[place].name, level.uvs.values[level.uvs.corners])

    # ---- Numbers of points ----

    @cached_property
    def _table(self) -> Any:
        if self._limit_depth is None:
            return self._mesh.table(self._settings.depth)
        return self._mesh.limit_table(self._limit_depth).rows(0, len(self.points))

    def smooth(self, columns: np.ndarray) -> np.ndarray:
        """Returns numbers (n, k) of the points of the cage for those of the level, by the rules of its points."""
        return in_parts(self._table, columns)

    def linear(self, columns: np.ndarray) -> np.ndarray:
        """Returns numbers (n, k) of the points of the cage for those of the level, spread evenly over each face."""
        spread = np.zeros((len(self.points), columns.shape[1]))
        spread[: len(columns)] = columns
        spread[self.level.corners] = self.linear_at_corners(columns, self._cage.corners)
        return spread

    def linear_at_corners(self, columns: np.ndarray, corners: np.ndarray) -> np.ndarray:
        """Returns numbers (n, k) for all corners of the level, spread evenly over each face.

        `corners` name the numbers of the corners of the cage. So the modifier spreads weights and colours. It is the
        rule of a UV map that is not smoothed.
        """
        depth, flat = self._settings.depth, np.zeros((len(columns), 2), np.float32)
        mesh = self._new_mesh(SharedValues(flat, corners.astype(np.uint32)), False)
        controls, values = mesh.refine(0, "linear").uvs.corners, mesh.refine(depth, "linear").uvs.corners
        if not len(corners):
            return np.zeros((0, columns.shape[1]))
        sources = np.zeros(int(controls.max()) + 1, np.int64)
        sources[controls] = corners
        return in_parts(mesh.texture_table(depth, "linear"), columns[sources])[values]

    # ---- Faces and edges ----

    @cached_property
    def face_parents(self) -> np.ndarray:
        """The face of the cage from which each face of the level comes: children of a face stand together."""
        counts = self._cage.sizes.astype(np.int64) * 4 ** (self._settings.depth - 1)
        return np.repeat(np.arange(len(counts)), counts)

    def edge_parents(self, ends: np.ndarray) -> np.ndarray:
        """Returns for each edge (points of the level) the edge of the cage that it lies on, or -1 inside a face."""
        kinds, numbers = self.level.point_origins.kinds[ends], self.level.point_origins.numbers[ends]
        of_library = edge_numbers(self._cage.edges, self._mesh.refine(0).edges)
        at_edge = (kinds == ON_EDGE).any(1) & (kinds != ON_FACE).all(1)
        parents = edge_numbers(self._cage.edges, ends)
        parents[(kinds == ON_FACE).any(1)] = -1
        first = np.where(kinds[:, 0] == ON_EDGE, numbers[:, 0], numbers[:, 1])
        parents[at_edge] = of_library[first[at_edge]]
        return parents


def in_parts(table: Any, columns: np.ndarray) -> np.ndarray:
    """Returns what a table makes of columns, of which there is one at least."""
    starts = range(0, columns.shape[1], COLUMNS)
    return np.concatenate([table @ np.ascontiguousarray(columns[:, at : at + COLUMNS], np.float64) for at in starts], 1)


def is_too_long(library: ModuleType, error: Any) -> bool:
    """Returns whether the library may have refused for numbers with too many digits.

    It refuses a common denominator above 10^37 as a bad array.
    """
    return isinstance(error, (library.ExactOverflowError, library.NumberError)) or error.fault.status == "bad arrays"


def finest_grid(library: ModuleType, cage: Cage, settings: Settings) -> tuple[int, Changes] | None:
    """Returns the bits of the finest grid on which the cage can be refined, and what it changes.

    None stands for no grid. The library's Error: it refuses for another cause.
    """

    def fails(bits: int) -> bool:
        """Returns whether the numbers are too long on a grid."""
        try:
            Refinement(library, cage, settings.on_grid(bits))
        except library.Error as error:
            if is_too_long(library, error):
                return True
            raise
        return False

    bits = bisect_left(range(GRID_BITS[1] + 1), True, key=fails) - 1
    return None if bits < 0 else (bits, Refinement(library, cage, settings.on_grid(bits)).changes)
