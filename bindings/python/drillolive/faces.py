"""Faces of a mesh or a level: how many corners each has, and the points of all corners, one face behind the other."""

from __future__ import annotations

from array import array
from itertools import chain, islice
from typing import Any, NamedTuple

from . import arrays
from ._interface import Faces
from .arrays import Memory, in_tuples, indices_of, is_numpy, memory_of
from .errors import argument_error


class FaceMemory(NamedTuple):
    """Faces as the library takes them, in memory that stays as long as this does."""

    sizes: Memory
    corners: Memory

    def record(self) -> Faces:
        """Returns the structure for a call."""
        sizes, corners = self.sizes, self.corners
        return Faces(sizes.address, *sizes.shape, corners.address, *corners.shape)


def flat_indices(values: Any, what: str) -> Memory:
    """Returns whole numbers as memory, be they flat, or in a row for each face.

    ArgumentError: a value is no index.
    """
    if is_numpy(values):
        return indices_of(values, what)
    held = list(values)
    are_rows = bool(held) and hasattr(held[0], "__len__")
    return indices_of(list(chain.from_iterable(held)) if are_rows else held, what)


def face_memory(faces: Any) -> FaceMemory:
    """Returns faces that are a list of lists, an array (m, k), or a tuple (sizes, corners).

    ArgumentError: they are none.
    """
    if isinstance(faces, tuple) and len(faces) == 2:
        return FaceMemory(indices_of(faces[0], "face size"), flat_indices(faces[1], "corner"))
    if is_numpy(faces) and faces.dtype != object:
        if faces.ndim != 2:
            advice = "Give an array (m, k), a list of faces, or a tuple (sizes, corners)."
            raise argument_error(f"faces have the shape {faces.shape}", advice)
        return FaceMemory(memory_of(array("I", [faces.shape[1]]) * faces.shape[0]), indices_of(faces, "corner"))
    try:
        held = [face if hasattr(face, "__len__") else list(face) for face in faces]
    except TypeError:
        raise argument_error("faces are no lists of corners", "Give a list such as [(0, 1, 2), (0, 2, 3)].") from None
    return FaceMemory(memory_of(array("I", map(len, held))), indices_of(list(chain.from_iterable(held)), "corner"))


def faces_in_rows(sizes: Any, corners: Any) -> Any:
    """Returns an array (m, k), or a list of tuples, of faces that all have k corners; else a list of tuples."""
    if arrays.numpy is not None:
        if len(sizes) and sizes.min() == sizes.max():
            return corners.reshape(len(sizes), int(sizes[0]))
        sizes, corners = sizes.tolist(), corners.tolist()
    if sizes and min(sizes) == max(sizes):
        return in_tuples(corners, sizes[0])
    rest = iter(corners)
    return [tuple(islice(rest, size)) for size in sizes]
