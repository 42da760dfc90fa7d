"""Faults of a mesh that is no manifold: what they say, and their points, edges and faces selected."""

from __future__ import annotations

from dataclasses import dataclass, field
from typing import Any

import bmesh
import bpy

from .words import counted

# The kinds of the library's faults of a mesh that name an edge and a point. The others name a face.
EDGE_KINDS = (2, 3)
POINT_KIND = 4

# A report has so many lines of faults.
LINES = 3


@dataclass
class Elements:
    """Points, edges (two points each) and faces, counted from 0."""

    points: list[int] = field(default_factory=list)
    edges: list[tuple[int, int]] = field(default_factory=list)
    faces: list[int] = field(default_factory=list)


def elements_of(faults: list[Any]) -> Elements:
    """Returns what the faults of a mesh name."""
    elements = Elements()
    for fault in faults:
        if fault.status != "mesh":
            continue
        if fault.kind in EDGE_KINDS:
            elements.edges.append((fault.first, fault.second))
        elif fault.kind == POINT_KIND:
            elements.points.append(fault.first)
        else:
            elements.faces.append(fault.first)
    return elements


def text_of(faults: list[Any]) -> str:
    """Returns how many faults there are, the first lines, and the advice on the first one."""
    count = counted(len(faults), "fault")
    lines = "; ".join(fault.cause for fault in faults[:LINES])
    more = f"; and {len(faults) - LINES} more" if len(faults) > LINES else ""
    return f"The mesh is no manifold: {count}, selected in edit mode: {lines}{more}. {faults[0].advice}"


def select(source: bpy.types.Object, elements: Elements) -> None:
    """Selects elements of an object in edit mode, and nothing else."""
    modes = (bool(elements.points), bool(elements.edges), bool(elements.faces))
    if not any(modes):
        return
    bpy.ops.object.mode_set(mode="EDIT")
    bpy.context.tool_settings.mesh_select_mode = modes
    mesh = bmesh.from_edit_mesh(source.data)
    mesh.select_mode = {name for name, is_on in zip(("VERT", "EDGE", "FACE"), modes) if is_on}
    for items in (mesh.verts, mesh.edges, mesh.faces):
        items.ensure_lookup_table()
        for item in items:
            item.select = False
    for item in items_of(mesh, elements):
        item.hide_set(False)
        item.select_set(True)
    bmesh.update_edit_mesh(source.data, loop_triangles=False, destructive=False)


def items_of(mesh: bmesh.types.BMesh, elements: Elements) -> list[Any]:
    """Returns the items of a mesh in edit mode for elements."""
    edges = [mesh.edges.get((mesh.verts[first], mesh.verts[second])) for first, second in elements.edges]
    return [
        *(mesh.verts[point] for point in elements.points),
        *(edge for edge in edges if edge is not None),
        *(mesh.faces[face] for face in elements.faces),
    ]
