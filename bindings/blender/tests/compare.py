"""Compares meshes of the add-on with those of Blender's Subdivision modifier, whose order of points is another."""

from __future__ import annotations

from dataclasses import dataclass
from typing import Any

import bpy
import numpy as np
from drillolive_blender.meshes import numbers_of
from mathutils.kdtree import KDTree


def add_modifier(source: bpy.types.Object, **properties: Any) -> bpy.types.Modifier:
    """Adds a Subdivision modifier without a limit surface, with these properties."""
    modifier = source.modifiers.new("Subdivision", "SUBSURF")
    for name, value in {"use_limit_surface": False, **properties}.items():
        setattr(modifier, name, value)
    return modifier


def evaluated(source: bpy.types.Object) -> bpy.types.Mesh:
    """Returns a copy of the mesh of an object with its modifiers and shape keys."""
    graph = bpy.context.evaluated_depsgraph_get()
    return bpy.data.meshes.new_from_object(source.evaluated_get(graph), preserve_all_data_layers=True, depsgraph=graph)


def refined(source: bpy.types.Object, **properties: Any) -> bpy.types.Object:
    """Returns the object that the operator makes of an object."""
    source.hide_set(False)
    bpy.context.view_layer.objects.active = source
    assert bpy.ops.object.drillolive_refine(**properties) == {"FINISHED"}
    return bpy.context.object


@dataclass(frozen=True)
class Quads:
    """Points (n, 3) and quads (m, 4) of a mesh, and its UV map (4m, 2) or None."""

    points: np.ndarray
    corners: np.ndarray
    uvs: np.ndarray | None

    def at_corners(self) -> np.ndarray:
        """Returns the point of each corner."""
        return self.points[self.corners]

    def size(self) -> float:
        """Returns the greatest extent."""
        return float(np.ptp(self.points, 0).max())


def quads_of(mesh: bpy.types.Mesh) -> Quads:
    """Returns the quads of a mesh."""
    uvs = numbers_of(mesh.uv_layers[0].data, "uv", np.float32, 2) if mesh.uv_layers else None
    points = numbers_of(mesh.vertices, "co", np.float32, 3)
    return Quads(points.astype(np.float64), numbers_of(mesh.loops, "vertex_index", np.int32), uvs)


def places_in_faces(quads: Quads) -> np.ndarray:
    """Returns for each corner a place inside its face, near to it: one that no other corner has."""
    corners = quads.at_corners().reshape(-1, 4, 3)
    return (0.75 * corners + 0.25 * corners.mean(1, keepdims=True)).reshape(-1, 3)


def matching(ours: Quads, theirs: Quads) -> np.ndarray:
    """Returns for each corner of ours the nearest one of theirs. AssertionError: two have the same."""
    tree = KDTree(len(theirs.corners))
    for place, point in enumerate(places_in_faces(theirs)):
        tree.insert(point, place)
    tree.balance()
    found = np.array([tree.find(point)[1] for point in places_in_faces(ours)])
    assert len(ours.corners) == len(theirs.corners) == len(np.unique(found)), "corners match no others"
    assert len(ours.points) == len(theirs.points), "there are more or fewer points"
    return found


def point_matching(ours: Quads, theirs: Quads, corners: np.ndarray) -> np.ndarray:
    """Returns for each point of ours that of theirs, by matching corners."""
    points = np.zeros(len(ours.points), np.int64)
    points[ours.corners] = theirs.corners[corners]
    return points


def point_distance(ours: Quads, theirs: Quads, corners: np.ndarray) -> float:
    """Returns the greatest difference of a coordinate, as a share of the size."""
    return float(np.abs(ours.at_corners() - theirs.at_corners()[corners]).max()) / theirs.size()


def uv_distances(ours: Quads, theirs: Quads, corners: np.ndarray) -> np.ndarray:
    """Returns for each corner the difference of its UVs, as a share of the size of the map."""
    size = max(float(np.ptp(theirs.uvs, 0).max()), 1e-9)
    return np.abs(ours.uvs - theirs.uvs[corners]).max(1) / size
