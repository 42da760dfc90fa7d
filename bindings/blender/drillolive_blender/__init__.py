"""An add-on for Blender: exact Catmull-Clark refinement of mesh objects by the library Drillolive."""

from __future__ import annotations

import bpy

from .operator import DRILLOLIVE_OT_refine
from .panel import DRILLOLIVE_PT_refine
from .preferences import DrilloliveBlenderPreferences

bl_info = {
    "name": "Drillolive",
    "author": "The authors of Drillolive",
    "version": (0, 1, 0),
    "blender": (3, 4, 0),
    "location": "3D View > Sidebar > Drillolive",
    "description": "Refines meshes exactly by the rules of Catmull and Clark",
    "category": "Mesh",
}

CLASSES = (DrilloliveBlenderPreferences, DRILLOLIVE_OT_refine, DRILLOLIVE_PT_refine)


def draw_in_menu(menu: bpy.types.Menu, context: bpy.types.Context) -> None:
    """Draws the operator in the menu Object."""
    menu.layout.operator(DRILLOLIVE_OT_refine.bl_idname)


def register() -> None:
    """Adds the operator, the panel and the preferences."""
    for one in CLASSES:
        bpy.utils.register_class(one)
    bpy.types.VIEW3D_MT_object.append(draw_in_menu)


def unregister() -> None:
    """Removes what `register` added."""
    bpy.types.VIEW3D_MT_object.remove(draw_in_menu)
    for one in reversed(CLASSES):
        bpy.utils.unregister_class(one)
