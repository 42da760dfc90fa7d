"""UV maps: which corners share a value, and UV maps of a refined mesh."""

from __future__ import annotations

from dataclasses import dataclass
from typing import Any

import bpy
import numpy as np

# Corners of a point whose UVs differ by less than this share a value, as Blender's modifier has it.
NEAR = np.float32(0.0001)


@dataclass(frozen=True)
class UvMap:
    """A UV map: its name, and the values (c, 2) of all corners of faces."""

    name: str
    values: np.ndarray


@dataclass(frozen=True)
class SharedValues:
    """A UV map whose corners share values: values (k, 2), and for each corner the number of its value."""

    values: np.ndarray
    corners: np.ndarray


def read_uv_maps(mesh: bpy.types.Mesh, loops: np.ndarray) -> list[UvMap]:
    """Returns the UV maps of a mesh, whose corners have these loops."""
    maps = []
    for layer in mesh.uv_layers:
        values = np.zeros(2 * len(mesh.loops), np.float32)
        layer.data.foreach_get("uv", values)
        maps.append(UvMap(layer.name, values.reshape(-1, 2)[loops]))
    return maps


def winds_left(values: np.ndarray, sizes: np.ndarray) -> np.ndarray:
    """Returns for each face whether its UVs wind to the left.

    The sum is made of floats of 32 bits, in the order of the modifier, so that flat faces come out as there.
    """
    ends = np.cumsum(sizes)
    starts = ends - sizes
    areas = np.zeros(len(sizes), np.float32)
    for place in range(int(sizes.max(initial=0))):
        faces = np.flatnonzero(sizes > place)
        here = values[starts[faces] + place]
        before = values[(starts[faces] + place - 1) if place else ends[faces] - 1]
        areas[faces] += (before[:, 0] - here[:, 0]) * (here[:, 1] + before[:, 1])
    return areas > 0


def share_values(uv_map: UvMap, points: np.ndarray, sizes: np.ndarray) -> SharedValues:
    """Returns which corners share a value: those of one point whose UVs are near, in faces that wind the same way.

    `points` are the points of all corners. A shared value is that of the last of its corners. Of the corners of a point
    the last one takes all that are near to it, then the last of those that are left, and so on, as in the modifier.
    """
    values, left = uv_map.values, np.repeat(winds_left(uv_map.values, sizes), sizes)
    keepers = np.full(len(points), -1)
    rest = np.argsort(points, kind="stable")[::-1]
    while len(rest):
        begins = np.flatnonzero(np.diff(points[rest], prepend=-1))
        keeper = np.repeat(rest[begins], np.diff(begins, append=len(rest)))
        near = (np.abs(values[rest] - values[keeper]) < NEAR).all(1) & (left[rest] == left[keeper])
        near |= rest == keeper
        keepers[rest[near]] = keeper[near]
        rest = rest[~near]
    kept, corners = np.unique(keepers, return_inverse=True)
    return SharedValues(values[kept], corners.astype(np.uint32))


def write_uv_maps(mesh: bpy.types.Mesh, uv_maps: list[UvMap], source: Any) -> None:
    """Writes UV maps, and makes those active that are so in the source mesh."""
    for uv_map, old in zip(uv_maps, source.uv_layers):
        layer = mesh.uv_layers.new(name=uv_map.name, do_init=False)
        layer.data.foreach_set("uv", uv_map.values.astype(np.float32).ravel())
        layer.active_render = old.active_render
    if uv_maps:
        mesh.uv_layers.active_index = source.uv_layers.active_index
