"""The meshes of the tests: each a new active object with UVs."""

from __future__ import annotations

import random
from typing import Callable

import bpy


def clear() -> None:
    """Removes all objects and their meshes."""
    if bpy.context.mode != "OBJECT":
        bpy.ops.object.mode_set(mode="OBJECT")
    for held in (bpy.data.objects, bpy.data.meshes, bpy.data.materials):
        for item in list(held):
            held.remove(item)


def shaken(seed: int, amount: float = 0.1) -> bpy.types.Object:
    """Moves the points of the active object at random, and returns it."""
    numbers = random.Random(seed)
    for vertex in bpy.context.object.data.vertices:
        vertex.co = [number + numbers.uniform(-amount, amount) for number in vertex.co]
    return bpy.context.object


def set_edge_creases(source: bpy.types.Object, creases: list[float]) -> None:
    """Gives the edges these creases in turn."""
    mesh = source.data
    held = [creases[place % len(creases)] for place in range(len(mesh.edges))]
    if hasattr(mesh, "edge_creases"):
        mesh.edges.foreach_set("crease", held)
    else:
        mesh.attributes.new("crease_edge", "FLOAT", "EDGE").data.foreach_set("value", held)


def set_point_creases(source: bpy.types.Object, creases: list[float]) -> None:
    """Gives the points these creases in turn."""
    mesh = source.data
    held = [creases[place % len(creases)] for place in range(len(mesh.vertices))]
    if hasattr(mesh, "vertex_creases"):
        bpy.ops.mesh.customdata_crease_vertex_add()
        mesh.vertex_creases[0].data.foreach_set("value", held)
    else:
        mesh.attributes.new("crease_vert", "FLOAT", "POINT").data.foreach_set("value", held)


def cube() -> bpy.types.Object:
    """A cube."""
    bpy.ops.mesh.primitive_cube_add()
    return bpy.context.object


def creased_cube() -> bpy.types.Object:
    """A cube whose edges are smooth, semi-sharp and infinitely sharp."""
    bpy.ops.mesh.primitive_cube_add()
    set_edge_creases(bpy.context.object, [1.0, 0.5, 0.0, 0.25, 0.8])
    return shaken(1)


def monkey() -> bpy.types.Object:
    """Suzanne: quads and triangles, with boundaries."""
    bpy.ops.mesh.primitive_monkey_add()
    return bpy.context.object


def dissolved_monkey() -> bpy.types.Object:
    """Suzanne with n-gons."""
    bpy.ops.mesh.primitive_monkey_add()
    modifier = bpy.context.object.modifiers.new("Decimate", "DECIMATE")
    modifier.decimate_type = "DISSOLVE"
    modifier.angle_limit = 0.3
    bpy.ops.object.modifier_apply(modifier=modifier.name)
    return bpy.context.object


def grid() -> bpy.types.Object:
    """A grid with a boundary."""
    bpy.ops.mesh.primitive_grid_add(x_subdivisions=6, y_subdivisions=5)
    return shaken(2)


def torus() -> bpy.types.Object:
    """A torus."""
    bpy.ops.mesh.primitive_torus_add(major_segments=12, minor_segments=7)
    return shaken(3, 0.03)


def cylinder() -> bpy.types.Object:
    """A cylinder whose caps are n-gons."""
    bpy.ops.mesh.primitive_cylinder_add(vertices=9)
    return bpy.context.object


def cone() -> bpy.types.Object:
    """A cone: triangles and an n-gon."""
    bpy.ops.mesh.primitive_cone_add(vertices=7)
    return bpy.context.object


def joined() -> bpy.types.Object:
    """A cube and a grid in one object."""
    bpy.ops.mesh.primitive_grid_add(x_subdivisions=3, y_subdivisions=3, location=(4, 0, 0))
    flat = bpy.context.object
    bpy.ops.mesh.primitive_cube_add()
    flat.select_set(True)
    bpy.ops.object.join()
    return bpy.context.object


def creased_points() -> bpy.types.Object:
    """A sphere of triangles with creases of points and of edges."""
    bpy.ops.mesh.primitive_ico_sphere_add(subdivisions=1)
    set_point_creases(bpy.context.object, [0.0, 0.3, 1.0, 0.6])
    set_edge_creases(bpy.context.object, [0.0, 0.0, 0.4])
    return shaken(4)


def touching_charts(gap: float = 0.3) -> bpy.types.Object:
    """A grid of four faces whose UVs are two charts, which touch at the middle point and have a gap elsewhere."""
    bpy.ops.mesh.primitive_grid_add(x_subdivisions=2, y_subdivisions=2)
    mesh = bpy.context.object.data
    for face in mesh.polygons:
        side = 1 if face.center.x > 0 else -1
        for loop in face.loop_indices:
            x, y, _ = mesh.vertices[mesh.loops[loop].vertex_index].co
            mesh.uv_layers[0].data[loop].uv = (x + side * gap * round(abs(y)), y)
    return bpy.context.object


def mirrored_uvs() -> bpy.types.Object:
    """A grid whose UVs are folded in the middle: faces there share UVs, and wind the other way."""
    bpy.ops.mesh.primitive_grid_add(x_subdivisions=4, y_subdivisions=3)
    for item in bpy.context.object.data.uv_layers[0].data:
        item.uv[0] = abs(item.uv[0] - 0.5)
    return bpy.context.object


CAGES: dict[str, Callable[[], bpy.types.Object]] = {
    "cube": cube,
    "creased cube": creased_cube,
    "monkey": monkey,
    "dissolved monkey": dissolved_monkey,
    "grid": grid,
    "torus": torus,
    "cylinder": cylinder,
    "cone": cone,
    "joined": joined,
    "creased points": creased_points,
    "touching charts": touching_charts,
    "mirrored UVs": mirrored_uvs,
}
