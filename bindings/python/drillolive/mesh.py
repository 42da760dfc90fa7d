"""Meshes: made of points and faces, or of OBJ text, and what can be asked of them."""

from __future__ import annotations

from ctypes import byref, c_size_t, c_uint64
from fractions import Fraction
from functools import cached_property
from itertools import accumulate
from os import PathLike
from pathlib import Path
from typing import Any, Collection, Iterable, Sequence

from ._calls import Handle, call, choice, fault_of, new_handle, whole
from ._interface import BOUNDARIES, METHODS, SEAMS, SELECTIONS, CornerTag, Crease, FaultRecord, Form, MeshCounts
from .arrays import Memory, exact_doubles, indices_of, rows_of
from .errors import Error, Fault, argument_error
from .faces import face_memory, faces_in_rows, flat_indices
from .fans import fans_of, points_of_several_fans
from .obj_grid import points_on_grid
from .refined import Refined
from .rows import LEVEL, LIMIT, PATCH, TEXTURE, Rows
from .session import Session
from .sparse import SparseLevels
from .table import Table

DEPTH_LIMIT = 10
GRID_LIMIT = 126

# What the faults of a mesh by itself have as status. `check` lists these, and raises others.
MESH_STATUSES = {"mesh", "bad arrays", "too large"}

# The status of a mesh that is no manifold, and its kinds.
MESH_STATUS = 6
FEW_CORNERS, REPEATED_POINT, MANY_FACES, ONE_DIRECTION, MANY_FANS = range(5)


class Mesh:
    """A mesh: points, faces and tags. It does not change once it is made, and threads may share it.

    It is judged whole by `check`, or when it is refined: MeshError where it is no manifold.
    """

    rounded = 0

    def __init__(
        self,
        points: Any,
        faces: Any,
        *,
        creases: Iterable[tuple[int, int, float]] | None = None,
        corners: Iterable[tuple[int, float]] | None = None,
        holes: Iterable[int] | None = None,
        uvs: tuple[Any, Any] | None = None,
        boundary: str | None = "edge_only",
        method: str | None = "normal",
        grid_bits: int | None = None,
    ) -> None:
        """Makes a mesh of points (n, 3) in the caller's unit, and of faces whose corners count points from 0.

        `points` are an array of floats, or rows of floats, whole numbers and fractions; all are taken exactly. With
        `grid_bits` each coordinate is rounded to a multiple of 2^-grid_bits, and `rounded` tells how many of them
        changed. `faces` are a list of lists, an array (m, k), or a tuple (sizes, corners). `creases` have two points
        and a sharpness, `corners` a point and a sharpness, and `holes` are faces. From 10 on a sharpness is infinite.
        `uvs` are values (n, 2), and the number of a value for each corner of the mesh. `boundary` is none,
        edge_and_corner or edge_only, and `method` is normal or chaikin.

        NumberError: a number is not finite, or the numbers fit no common denominator. ArgumentError: another argument
        is wrong.
        """
        self._handle, self.rounded = new_mesh(points, faces, grid_bits)
        set_tags(self._handle, creases, corners, holes, boundary, method)
        if uvs is not None:
            set_texture(self._handle, *uvs)

    @classmethod
    def from_obj(
        cls,
        source: str | PathLike[str] | bytes,
        *,
        creases: Iterable[tuple[int, int, float]] | None = None,
        corners: Iterable[tuple[int, float]] | None = None,
        holes: Iterable[int] | None = None,
        boundary: str | None = None,
        method: str | None = None,
        grid_bits: int | None = None,
    ) -> Mesh:
        """Reads a mesh from a file at a path, or from bytes of OBJ text.

        Tags that are given replace those of the text. With `grid_bits` each coordinate is rounded to a multiple of
        2^-grid_bits, and `rounded` tells how many of them changed.

        ObjError: a line is not understood. OSError: the file cannot be read. ArgumentError: an argument is wrong.
        """
        text = bytes(source) if isinstance(source, (bytes, bytearray, memoryview)) else Path(source).read_bytes()
        mesh = cls.__new__(cls)
        if grid_bits is not None:
            text, mesh.rounded = points_on_grid(text, bits_of(grid_bits))
        mesh._handle = new_handle("mesh", "mesh_new_obj", text, len(text))
        set_tags(mesh._handle, creases, corners, holes, boundary, method)
        return mesh

    def __repr__(self) -> str:
        return f"<drillolive.Mesh: {self.counts.points} points, {self.counts.faces} faces>"

    # ---- What the mesh has ----

    @cached_property
    def counts(self) -> MeshCounts:
        """How many points, faces, corners, texture values, texture corners and tags there are."""
        return self._handle.count(MeshCounts())

    @cached_property
    def face_sizes(self) -> Any:
        """How many corners each face has."""
        return Memory(self._handle.get("face_sizes"), "I", (self.counts.faces,), self._handle).array()

    @cached_property
    def corners(self) -> Any:
        """The points of all corners, one face behind the other."""
        return Memory(self._handle.get("corners"), "I", (self.counts.corners,), self._handle).array()

    @cached_property
    def texture_corners(self) -> Any:
        """The number of the texture value of each corner; empty where the mesh has no texture."""
        return Memory(self._handle.get("texture_corners"), "I", (self.counts.texture_corners,), self._handle).array()

    @property
    def creases(self) -> list[tuple[int, int, Fraction]]:
        """The two points and the sharpness of each crease, as they were given. From 10 on a sharpness is infinite."""
        return [(tag.first, tag.second, sharpness_of(tag)) for tag in self._tags("creases", Crease)]

    @property
    def corner_tags(self) -> list[tuple[int, Fraction]]:
        """The point and the sharpness of each corner that was given. From 10 on a sharpness is infinite."""
        return [(tag.point, sharpness_of(tag)) for tag in self._tags("corner_tags", CornerTag)]

    @cached_property
    def holes(self) -> Any:
        """The faces that are holes, as they were given."""
        return Memory(self._handle.get("holes"), "I", (self.counts.holes,), self._handle).array()

    def _tags(self, name: str, kind: Any) -> Any:
        count = getattr(self.counts, name)
        return (kind * count).from_address(self._handle.get(name)) if count else ()

    @cached_property
    def faces(self) -> Any:
        """The points of each face: an array (m, k) where all faces have k corners, else a list of tuples."""
        return faces_in_rows(self.face_sizes, self.corners)

    @cached_property
    def points(self) -> Any:
        """The points as the nearest doubles, an array (n, 3): the controls of each table.

        MeshError: it is no manifold.
        """
        return Rows(self._handle, LEVEL, (0,)).numbers_of_points(Form.doubles)

    # ---- Judging ----

    def check(self) -> list[Fault]:
        """Returns all faults of the mesh: none where it is a manifold that can be refined.

        Faces come first: those of fewer than three corners, and then those that repeat a point. Edges follow in the
        order in which faces name them, and then points that join several fans of faces. Points of faces or edges with
        faults are left out there. Where an array of the mesh names what is not there, or a count passes its limit,
        this one fault is returned.
        """
        try:
            faults = list_faults(self._handle)
            return faults + self._unlisted_fans(faults)
        except Error as error:
            if error.fault.status in MESH_STATUSES:
                return [error.fault]
            raise

    def _unlisted_fans(self, faults: list[Fault]) -> list[Fault]:
        """Returns the faults of points, which the library lists only if no face and no edge has a fault."""
        if not faults or faults[-1].kind == MANY_FANS:
            return []
        sizes, corners = list(self.face_sizes), list(self.corners)
        ends = list(accumulate(sizes))
        touched: set[int] = set()
        for fault in faults:
            if fault.kind in (FEW_CORNERS, REPEATED_POINT):
                touched.update(corners[ends[fault.first] - sizes[fault.first] : ends[fault.first]])
            else:
                touched |= {fault.first, fault.second}
        return fan_faults(corners, fans_of(sizes, corners).firsts(), touched)

    def check_table(self, depth: int, text: bytes | str) -> None:
        """Refuses a text that is not exactly the stored table of this mesh at a depth. TableError: it is not."""
        held = text.encode() if isinstance(text, str) else bytes(text)
        call("table_check", self._handle, depth_of(depth), held, len(held))

    # ---- Levels ----

    def refine(self, depth: int, uv: str = "smooth") -> Refined:
        """Returns the level at a depth from 0 to 10. `uv` says which texture points stay fixed.

        `smooth` fixes none, `corners` the corners of charts, `boundaries` their rims, and `linear` all.
        MeshError, TooLargeError, ExactOverflowError: the mesh cannot be refined so.
        """
        return self._refined(LEVEL, depth, uv)

    def limit(self, depth: int, uv: str = "smooth") -> Refined:
        """Returns the level at a depth from 1 to 10, whose points are where refinement takes them in the end.

        LimitError: a point has no limit. Other exceptions are those of `refine`.
        """
        return self._refined(LIMIT, depth, uv)

    def patch(self, depth: int, face: int, grid: int) -> Any:
        """Returns points of the limit surface over a face of the level at a depth, an array ((grid + 1)^2, 3).

        Point i + j * (grid + 1) lies at i / grid along the first side of the face. It lies at j / grid along the last.
        `grid` is from 1 to 64. PlaceError: the level has no such face, or the face has no patch.
        """
        return self._patch_rows(depth, face, grid).numbers_of_points(Form.doubles)

    def sparse(self, depth: int, select: str = "features") -> SparseLevels:
        """Returns the levels from 0 to a depth, of which each keeps the faces near selected ones of the level before.

        `select` is `features`, or `all` faces that are no holes. The exceptions are those of `refine`.
        """
        return SparseLevels(self._handle, depth_of(depth), choice(select, "select", SELECTIONS))

    # ---- Tables ----

    def table(self, depth: int, floats: bool = False) -> Table:
        """Returns the table of the level at a depth: how each point is made of the points of the mesh, its controls.

        With `floats` its weights are floats of 32 bits, and so is what it gives. The exceptions are those of
        `refine`.
        """
        return Table.of_rows(Rows(self._handle, LEVEL, (depth_of(depth),)), floats)

    def limit_table(self, depth: int, floats: bool = False) -> Table:
        """Returns the table of the limit points of the level at a depth from 1 to 10.

        The exceptions are those of `limit`.
        """
        return Table.of_rows(Rows(self._handle, LIMIT, (depth_of(depth, 1),)), floats)

    def patch_table(self, depth: int, face: int, grid: int, floats: bool = False) -> Table:
        """Returns the table of the points that `patch` gives. The exceptions are those of `patch`."""
        return Table.of_rows(self._patch_rows(depth, face, grid), floats)

    def texture_table(self, depth: int, uv: str = "smooth", floats: bool = False) -> Table:
        """Returns the table of the texture values of a level. Its controls are the values of `refine(0, uv).uvs`.

        ArgumentError: the mesh has no texture. Other exceptions are those of `refine`.
        """
        return Table.of_rows(Rows(self._handle, TEXTURE, (depth_of(depth), choice(uv, "uv", SEAMS))), floats)

    def session(self, depth: int, finer_bits: int = 0) -> Session:
        """Returns a session: the points of a level at a depth, which follow the points of the mesh as these move.

        Moves are whole multiples of 1 over 2^finer_bits times the common denominator of the points.
        """
        return Session(self._handle, depth_of(depth), whole(finer_bits, "number of finer bits", 0, GRID_LIMIT))

    def _refined(self, kind: str, depth: int, uv: str) -> Refined:
        held = depth_of(depth, 1 if kind == LIMIT else 0)
        seams = choice(uv, "uv", SEAMS)
        return Refined(Rows(self._handle, kind, (held,)), held, seams if self.counts.texture_corners else None)

    def _patch_rows(self, depth: int, face: int, grid: int) -> Rows:
        return Rows(self._handle, PATCH, (depth_of(depth), whole(face, "face"), whole(grid, "grid", 1, 64)))


def depth_of(depth: int, least: int = 0) -> int:
    """Returns a depth. ArgumentError: it is out of range."""
    return whole(depth, "depth", least, DEPTH_LIMIT)


def bits_of(grid_bits: int) -> int:
    """Returns the number of bits of a grid. ArgumentError: it is out of range."""
    return whole(grid_bits, "number of bits of the grid", 0, GRID_LIMIT)


def new_mesh(points: Any, faces: Any, grid_bits: int | None) -> tuple[Handle, int]:
    """Returns the handle of a new mesh, and how many of its coordinates were rounded."""
    held, changed = face_memory(faces), c_uint64()
    bits = None if grid_bits is None else bits_of(grid_bits)
    numbers = rows_of(points, 3, "points", bits)
    words: tuple[Any, ...] = (numbers.memory, numbers.rows, held.record())
    if numbers.form == Form.exact:
        address, *rest = words
        return new_handle("mesh", "mesh_new_exact", address, numbers.denominator, *rest), numbers.rounded
    if bits is None:
        return new_handle("mesh", f"mesh_new_{numbers.form.name}", *words), 0
    handle = new_handle("mesh", f"mesh_new_grid_{numbers.form.name}", *words, bits, byref(changed))
    return handle, changed.value


def set_tags(mesh: Handle, creases: Any, corners: Any, holes: Any, boundary: str | None, method: str | None) -> None:
    """Sets the tags of a mesh that are given, and leaves the others."""
    if creases is not None:
        ends, sharpness = split_tags(creases, 3, "creases")
        call("mesh_set_creases", mesh, ends, sharpness, *sharpness.shape)
    if corners is not None:
        points, sharpness = split_tags(corners, 2, "corners")
        call("mesh_set_corner_tags", mesh, points, sharpness, *sharpness.shape)
    if holes is not None:
        faces = flat_indices(holes, "hole")
        call("mesh_set_holes", mesh, faces, *faces.shape)
    if boundary is not None:
        call("mesh_set_boundary", mesh, choice(boundary, "boundary", BOUNDARIES))
    if method is not None:
        call("mesh_set_method", mesh, choice(method, "method", METHODS))


def split_tags(tags: Iterable[Any], width: int, what: str) -> tuple[Memory, Memory]:
    """Returns the points and the sharpness of tags. Each tag has `width` items: points, and a sharpness."""
    held = [tuple(tag) for tag in tags]
    if any(len(tag) != width for tag in held):
        advice = "Give (point, point, sharpness) for a crease, and (point, sharpness) for a corner."
        raise argument_error(f"{what} have {width} items each", advice)
    points = [point for *points, _ in held for point in points]
    sharpness = exact_doubles([tag[-1] for tag in held], f"sharpness of the {what}")
    return indices_of(points, f"point of the {what}"), sharpness


def sharpness_of(tag: Crease | CornerTag) -> Fraction:
    """Returns the sharpness of a tag of the library."""
    return Fraction(tag.sharpness_num, tag.sharpness_den)


def set_texture(mesh: Handle, values: Any, corners: Any) -> None:
    """Sets the texture of a mesh: values (n, 2), and the number of a value for each corner."""
    numbers, indices = rows_of(values, 2, "texture values"), flat_indices(corners, "texture corner")
    form, memory = numbers.form, numbers.memory
    if form == Form.exact:
        rows = [Fraction(number, numbers.denominator) for number in memory.owner]
        form, memory = Form.doubles, exact_doubles(rows, "texture")
    call(f"mesh_set_texture_{form.name}", mesh, memory, numbers.rows, indices, *indices.shape)


def fan_faults(corners: Sequence[int], fans: Sequence[int], left_out: Collection[int]) -> list[Fault]:
    """Returns the faults of points that join several fans of faces, without those that are left out."""
    points = points_of_several_fans(corners, fans, left_out)
    return [fault_of(FaultRecord(MESH_STATUS, MANY_FANS, point, 0)) for point in points]


def list_faults(mesh: Handle) -> list[Fault]:
    """Returns all faults of a mesh that is no manifold, and none of a manifold. Error: it cannot be judged."""
    count = c_size_t()
    call("mesh_faults", mesh, None, 0, byref(count))
    if not count.value:
        call("mesh_check", mesh)
        return []
    records = (FaultRecord * count.value)()
    call("mesh_faults", mesh, records, len(records), byref(count))
    return [fault_of(record) for record in records]
