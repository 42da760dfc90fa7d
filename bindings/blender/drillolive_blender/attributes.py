"""What an object has beside its shape: materials, shading, marks of edges, colours, vertex groups and shape keys."""

from __future__ import annotations

import bpy
import numpy as np

from .meshes import Cage, loops_of, numbers_of, write_creases
from .refinement import Refinement, left_after

EDGE_MARKS = ("use_seam", "use_edge_sharp")


def write_faces(mesh: bpy.types.Mesh, source: bpy.types.Mesh, parents: np.ndarray) -> None:
    """Gives each face the material and the shading of the face from which it comes."""
    for material in source.materials:
        mesh.materials.append(material)
    for name, kind in (("material_index", np.int32), ("use_smooth", bool)):
        mesh.polygons.foreach_set(name, numbers_of(source.polygons, name, kind)[parents])


def write_edges(made: bpy.types.Object, source: bpy.types.Mesh, cage: Cage, refinement: Refinement, depth: int) -> None:
    """Gives each edge the marks of the edge on which it lies, and edges and points what is left of their creases."""
    mesh = made.data
    marks = {name: numbers_of(source.edges, name, bool) for name in EDGE_MARKS}
    creases = left_after(cage.edge_creases, depth)
    if creases.any() or any(held.any() for held in marks.values()):
        parents = refinement.edge_parents(numbers_of(mesh.edges, "vertices", np.int32, 2))
        for name, held in marks.items():
            mesh.edges.foreach_set(name, np.append(held, False)[parents])
        write_creases(made, np.append(creases, 0)[parents], True)
    points = np.zeros(len(mesh.vertices))
    points[: len(cage.points)] = left_after(cage.point_creases, depth)
    write_creases(made, points, False)


def write_colours(mesh: bpy.types.Mesh, source: bpy.types.Mesh, refinement: Refinement) -> None:
    """Writes the colours of points and corners, spread evenly over each face, as the modifier spreads them."""
    loops = loops_of(source)[1]
    for old in source.color_attributes:
        name = "color_srgb" if old.data_type == "BYTE_COLOR" else "color"
        colours = numbers_of(old.data, name, np.float32, 4)
        if old.domain == "POINT":
            spread = refinement.linear(colours)
        else:
            spread = refinement.linear_at_corners(colours[loops], np.arange(len(loops)))
        new = mesh.color_attributes.new(old.name, old.data_type, old.domain)
        new.data.foreach_set(name, spread.astype(np.float32).ravel())
    if len(source.color_attributes):
        mesh.color_attributes.active_color_index = source.color_attributes.active_color_index


def weights_of(source: bpy.types.Object) -> np.ndarray:
    """Returns the weight of each point in each vertex group, an array (n, groups)."""
    weights = np.zeros((len(source.data.vertices), len(source.vertex_groups)))
    if weights.shape[1]:
        for vertex in source.data.vertices:
            for member in vertex.groups:
                weights[vertex.index, member.group] = member.weight
    return weights


def write_groups(made: bpy.types.Object, source: bpy.types.Object, refinement: Refinement) -> None:
    """Writes the vertex groups, whose weights are spread evenly over each face, as the modifier spreads them."""
    if not source.vertex_groups:
        return
    columns = refinement.linear(weights_of(source)).astype(np.float32)
    for old, weights in zip(source.vertex_groups, columns.T):
        group = made.vertex_groups.new(name=old.name)
        fill_group(group, weights)
        group.lock_weight = old.lock_weight
    made.vertex_groups.active_index = source.vertex_groups.active_index


def fill_group(group: bpy.types.VertexGroup, weights: np.ndarray) -> None:
    """Puts the points whose weight is above 0 into a group: all points of one weight at once."""
    order = np.argsort(weights, kind="stable")
    order = order[weights[order] > 0]
    begins = np.flatnonzero(np.diff(weights[order], prepend=-1))
    for points in np.split(order, begins[1:]) if len(order) else []:
        group.add(points.tolist(), float(weights[points[0]]), "REPLACE")


def write_keys(made: bpy.types.Object, source: bpy.types.Object, refinement: Refinement) -> None:
    """Writes the shape keys, each refined by the table of the level."""
    keys = source.data.shape_keys
    if not keys:
        return
    shapes = [numbers_of(key.data, "co", np.float32, 3) for key in keys.key_blocks]
    columns = refinement.smooth(np.concatenate(shapes, 1)).astype(np.float32)
    for place, key in enumerate(keys.key_blocks):
        new = made.shape_key_add(name=key.name, from_mix=False)
        if place:
            new.data.foreach_set("co", np.ascontiguousarray(columns[:, 3 * place : 3 * place + 3]).ravel())
    copy_keys(made.data.shape_keys, keys)
    made.active_shape_key_index = source.active_shape_key_index
    made.show_only_shape_key = source.show_only_shape_key


def copy_keys(made: bpy.types.Key, keys: bpy.types.Key) -> None:
    """Copies how shape keys are mixed."""
    names = ("slider_min", "slider_max", "value", "mute", "interpolation", "vertex_group")
    for new, old in zip(made.key_blocks, keys.key_blocks):
        for name in names:
            setattr(new, name, getattr(old, name))
        new.relative_key = made.key_blocks[old.relative_key.name]
    made.use_relative = keys.use_relative
    if not keys.use_relative:
        made.eval_time = keys.eval_time
