"""Run in a clean profile of Blender: installs the zip named behind `--`, enables it, and refines the cube.

It refines once more with the package of the folder that is named behind the zip.
"""

from __future__ import annotations

import json
import sys

import bpy

path, prefix = sys.argv[sys.argv.index("--") + 1 :]
bpy.ops.preferences.addon_install(filepath=path)
bpy.ops.preferences.addon_enable(module="drillolive_blender")
bpy.ops.object.drillolive_refine(depth=1)
made = bpy.context.object.data
told = {
    "package": sys.modules["drillolive"].__file__,
    "add_on": sys.modules["drillolive_blender"].__file__,
    "faces": len(made.polygons),
    "point": list(made.vertices[0].co),
}
bpy.context.preferences.addons["drillolive_blender"].preferences.folder = prefix
bpy.ops.object.drillolive_refine(depth=1)
told["package_of_folder"] = sys.modules["drillolive"].__file__
told["faces_of_folder"] = len(bpy.context.object.data.polygons)
bpy.ops.preferences.addon_disable(module="drillolive_blender")
told["is_gone"] = not hasattr(bpy.types, "OBJECT_OT_drillolive_refine")
print("told", json.dumps(told))
