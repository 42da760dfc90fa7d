"""The panel in the sidebar of the 3D view."""

from __future__ import annotations

import bpy

from . import package
from .operator import DRILLOLIVE_OT_refine
from .preferences import folder_of
from .settings import DEPTHS, MOST_TRIANGLES, defaults_of, triangle_count
from .words import counted


class DRILLOLIVE_PT_refine(bpy.types.Panel):
    """Refines the active object, and says how many triangles come of it"""

    bl_label = "Drillolive"
    bl_idname = "DRILLOLIVE_PT_refine"
    bl_space_type = "VIEW_3D"
    bl_region_type = "UI"
    bl_category = "Drillolive"

    def draw(self, context: bpy.types.Context) -> None:
        """Draws the button, and the counts of each depth."""
        layout = self.layout
        layout.operator(DRILLOLIVE_OT_refine.bl_idname, icon="MOD_SUBSURF")
        found = package.look(folder_of(context))
        if found.module is None:
            for line in found.line.split(". "):
                layout.label(text=line, icon="ERROR")
        source = context.active_object
        if source is None or source.type != "MESH":
            layout.label(text="Make a mesh object active")
            return
        default = defaults_of(source)[0].depth
        for depth in range(DEPTHS[0], DEPTHS[1] + 1):
            count = triangle_count(len(source.data.loops), depth)
            icon = "ERROR" if count > MOST_TRIANGLES else "RADIOBUT_ON" if depth == default else "RADIOBUT_OFF"
            layout.label(text=f"Depth {depth}: {counted(count, 'triangle')}", icon=icon)
