"""Packs arrays of numbers for the page: base64 of typed arrays, least byte first."""

from __future__ import annotations

import base64
import sys
from array import array
from collections.abc import Sequence
from dataclasses import dataclass
from math import sqrt
from typing import Any

# The name of each type in the page, its code in the module array, and its type in numpy.
TYPES = {"u8": ("B", "|u1"), "u16": ("H", "<u2"), "u32": ("I", "<u4"), "f32": ("f", "<f4")}

Packed = dict


def packed(numbers: Any, kind: str) -> Packed:
    """Returns numbers of an array or a list as a typed array of the page: u8, u16, u32 or f32."""
    code, numpy_type = TYPES[kind]
    if hasattr(numbers, "astype"):
        data = numbers.astype(numpy_type).tobytes()
    else:
        held = array(code, numbers)
        if sys.byteorder == "big":
            held.byteswap()
        data = held.tobytes()
    return {"type": kind, "data": base64.b64encode(data).decode("ascii")}


def packed_indices(numbers: Any, bound: int) -> Packed:
    """Returns whole numbers from 0 up to, and without, `bound` in the narrowest type that serves."""
    return packed(numbers, "u16" if bound <= 2**16 else "u32")


def packed_pairs(pairs: Any) -> Packed:
    """Returns rows of numbers as floats of 32 bits, one row behind the other."""
    if hasattr(pairs, "ravel"):
        return packed(pairs.ravel(), "f32")
    return packed([number for row in pairs for number in row], "f32")


@dataclass(frozen=True)
class Frame:
    """Where the page puts points: the middle of the mesh at (0, 0, 0), and its farthest point at the distance 1."""

    middle: tuple[float, float, float]
    radius: float

    def packed(self, points: Any) -> Packed:
        """Returns points in this frame as floats of 32 bits. Those that are far from 0 keep their details so."""
        if hasattr(points, "astype"):
            return packed(((points - self.middle) / self.radius).ravel(), "f32")
        (right, up, near), radius = self.middle, self.radius
        placed = [((x - right) / radius, (y - up) / radius, (z - near) / radius) for x, y, z in points]
        return packed_pairs(placed)


def frame_of(points: Any, numbers: Sequence[int]) -> Frame:
    """Returns the frame of the points with these numbers, which are those of faces."""
    rows = points.tolist() if hasattr(points, "tolist") else points
    used = [rows[number] for number in set(numbers)] or [(0.0, 0.0, 0.0)]
    columns = list(zip(*used))
    middle = tuple(min(column) / 2 + max(column) / 2 for column in columns)
    farthest = max(sqrt(sum((number - center) ** 2 for number, center in zip(point, middle))) for point in used)
    return Frame((middle[0], middle[1], middle[2]), farthest or 1.0)
