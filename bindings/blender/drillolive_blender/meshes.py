"""Reads the mesh of an object as arrays, and writes arrays as a mesh."""

from __future__ import annotations

from dataclasses import dataclass, field
from functools import cached_property
from typing import Any

import bpy
import numpy as np

from .textures import UvMap, read_uv_maps

# From this version on creases are attributes.
CREASE_ATTRIBUTES = (4, 0, 0)


@dataclass(frozen=True)
class Cage:
    """The mesh of an object as arrays. Points, edges, faces and corners are counted from 0, as Blender counts them."""

    points: np.ndarray  # (n, 3) floats of 32 bits
    sizes: np.ndarray  # how many corners each face has
    corners: np.ndarray  # the points of all corners, one face behind the other
    edges: np.ndarray  # (e, 2)
    edge_creases: np.ndarray  # for each edge a number from 0 to 1
    point_creases: np.ndarray  # for each point a number from 0 to 1
    uv_maps: list[UvMap] = field(default_factory=list)

    @cached_property
    def loose_edges(self) -> np.ndarray:
        """The numbers of the edges that no face has."""
        starts = np.repeat(np.cumsum(self.sizes) - self.sizes, self.sizes)
        places = np.arange(len(self.corners)) - starts
        following = starts + (places + 1) % np.repeat(self.sizes, self.sizes)
        sides = np.stack([self.corners, self.corners[following]], 1)
        return np.flatnonzero(~np.isin(edge_keys(self.edges), edge_keys(sides)))

    @cached_property
    def loose_points(self) -> np.ndarray:
        """The numbers of the points that neither a face nor an edge has."""
        held = np.zeros(len(self.points), bool)
        held[self.corners] = True
        held[self.edges.ravel()] = True
        return np.flatnonzero(~held)


def numbers_of(items: Any, name: str, kind: type, width: int = 1) -> np.ndarray:
    """Returns a property of all items as an array, of so many numbers for each item."""
    room = np.zeros(len(items) * width, kind)
    items.foreach_get(name, room)
    return room.reshape(-1, width) if width > 1 else room


def edge_keys(ends: np.ndarray) -> np.ndarray:
    """Returns one number for each pair of points, which is the same for both orders."""
    ordered = np.sort(ends.astype(np.int64), 1)
    return ordered[:, 0] << 32 | ordered[:, 1]


def edge_numbers(edges: np.ndarray, ends: np.ndarray) -> np.ndarray:
    """Returns for each pair of points the number of its edge, or -1 where there is none."""
    if not len(edges):
        return np.full(len(ends), -1)
    keys, wanted = edge_keys(edges), edge_keys(ends)
    order = np.argsort(keys)
    places = order[np.minimum(np.searchsorted(keys, wanted, sorter=order), len(keys) - 1)]
    return np.where(keys[places] == wanted, places, -1)


def loops_of(mesh: bpy.types.Mesh) -> tuple[np.ndarray, np.ndarray]:
    """Returns how many corners each face has, and the loop of each corner, one face behind the other."""
    sizes = numbers_of(mesh.polygons, "loop_total", np.int32)
    starts = numbers_of(mesh.polygons, "loop_start", np.int32)
    return sizes, np.repeat(starts - (np.cumsum(sizes) - sizes), sizes) + np.arange(sizes.sum())


def creases_of(mesh: bpy.types.Mesh, is_edge: bool) -> np.ndarray:
    """Returns the creases of all edges, or of all points."""
    items = mesh.edges if is_edge else mesh.vertices
    if bpy.app.version >= CREASE_ATTRIBUTES:
        layer = mesh.attributes.get("crease_edge" if is_edge else "crease_vert")
    else:
        layer = next(iter(mesh.edge_creases if is_edge else mesh.vertex_creases), None)
    return numbers_of(layer.data, "value", np.float32) if layer else np.zeros(len(items), np.float32)


def read_cage(source: bpy.types.Object) -> Cage:
    """Returns the mesh of an object. Where it has shape keys, its points are those of the first key."""
    mesh = source.data
    points = mesh.shape_keys.reference_key.data if mesh.shape_keys else mesh.vertices
    sizes, loops = loops_of(mesh)
    return Cage(
        points=numbers_of(points, "co", np.float32, 3),
        sizes=sizes,
        corners=numbers_of(mesh.loops, "vertex_index", np.int32)[loops],
        edges=numbers_of(mesh.edges, "vertices", np.int32, 2),
        edge_creases=creases_of(mesh, True),
        point_creases=creases_of(mesh, False),
        uv_maps=read_uv_maps(mesh, loops),
    )


def write_mesh(name: str, points: np.ndarray, quads: np.ndarray, edges: np.ndarray) -> bpy.types.Mesh:
    """Returns a new mesh of points (n, 3) and quads (m, 4). `edges` (k, 2) are those that no quad has."""
    mesh = bpy.data.meshes.new(name)
    mesh.vertices.add(len(points))
    mesh.vertices.foreach_set("co", points.astype(np.float32).ravel())
    mesh.edges.add(len(edges))
    mesh.edges.foreach_set("vertices", edges.astype(np.int32).ravel())
    mesh.loops.add(quads.size)
    mesh.loops.foreach_set("vertex_index", quads.astype(np.int32).ravel())
    mesh.polygons.add(len(quads))
    mesh.polygons.foreach_set("loop_start", np.arange(0, quads.size, 4, np.int32))
    if len(quads) and not mesh.polygons[0].is_property_readonly("loop_total"):
        mesh.polygons.foreach_set("loop_total", np.full(len(quads), 4, np.int32))
    mesh.update(calc_edges=True, calc_edges_loose=True)
    return mesh


def write_creases(made: bpy.types.Object, creases: np.ndarray, is_edge: bool) -> None:
    """Writes the creases of all edges, or of all points, of an object."""
    mesh = made.data
    if not creases.any():
        return
    if bpy.app.version >= CREASE_ATTRIBUTES:
        name, domain = ("crease_edge", "EDGE") if is_edge else ("crease_vert", "POINT")
        data = mesh.attributes.new(name, "FLOAT", domain).data
    elif is_edge:
        mesh.edges.foreach_set("crease", creases.astype(np.float32))
        return
    else:
        with bpy.context.temp_override(object=made, mesh=mesh):
            bpy.ops.mesh.customdata_crease_vertex_add()
        data = mesh.vertex_creases[0].data
    data.foreach_set("value", creases.astype(np.float32))
