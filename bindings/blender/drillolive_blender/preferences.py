"""The preferences of the add-on: where the package drillolive is."""

from __future__ import annotations

import bpy
from bpy.props import StringProperty

from . import package


class DrilloliveBlenderPreferences(bpy.types.AddonPreferences):
    """Where the package is: a folder, or else the copy in the add-on, an installed one, or that of a checkout"""

    bl_idname = __package__

    folder: StringProperty(  # type: ignore[valid-type]
        name="Folder",
        description="The folder FOLDER of `./far --install FOLDER`. Leave it empty for the package in the add-on",
        subtype="DIR_PATH",
    )

    def draw(self, context: bpy.types.Context) -> None:
        """Draws the folder, and what is found there."""
        self.layout.prop(self, "folder")
        found = package.look(folder_of(context))
        self.layout.label(text=found.line, icon="ERROR" if found.module is None else "CHECKMARK")


def folder_of(context: bpy.types.Context) -> str:
    """Returns the folder of the preferences, or an empty text where there is none."""
    held = context.preferences.addons.get(__package__)
    return bpy.path.abspath(held.preferences.folder) if held and held.preferences and held.preferences.folder else ""
