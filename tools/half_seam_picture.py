"""Draws UVs at a half seam: the cage, what Blender's modifier makes of it, and what the add-on makes of it.

    blender -b --factory-startup --python tools/half_seam_picture.py -- docs/pictures/half_seam.png

Two charts of two faces each touch at one point, where their corners share a value. The edges there are half seams.
The UVs are smoothed under All, by three steps. Magenta lines are the rims of charts. The same files make the same
pixels. The library is the one of build/lib, or the one that the variable DRILLOLIVE_LIBRARY names.
"""

from __future__ import annotations

import sys
from collections import Counter
from pathlib import Path

import bpy
import numpy as np

BLENDER = Path(__file__).resolve().parent.parent / "bindings" / "blender"
sys.path[:0] = [str(BLENDER), str(BLENDER / "tests")]

import drillolive_blender  # noqa: E402
from cages import clear, touching_charts  # noqa: E402
from compare import add_modifier, evaluated, quads_of, refined  # noqa: E402

DEPTH = 3
FACE, EDGE, RIM, TEXT = "B2CDE8", "41597A", "A61E8C", "5A6B80"
WIDTH, HEIGHT, SPACING = 1080, 330, 3.1  # pixels, and units from one drawing to the next
CAPTIONS = ("the cage", "Blender's modifier", "Drillolive")


def material_of(colour: str) -> bpy.types.Material:
    """Returns a material that shines in a colour (six hexadecimal digits), whatever the light is."""
    material = bpy.data.materials.new(colour)
    material.use_nodes = True
    nodes = material.node_tree.nodes
    nodes.clear()
    shine, output = nodes.new("ShaderNodeEmission"), nodes.new("ShaderNodeOutputMaterial")
    parts = np.array([int(colour[at : at + 2], 16) / 255 for at in (0, 2, 4)])
    linear = np.where(parts > 0.04045, ((parts + 0.055) / 1.055) ** 2.4, parts / 12.92)
    shine.inputs["Color"].default_value = (*linear, 1)
    material.node_tree.links.new(shine.outputs[0], output.inputs[0])
    return material


def add(name: str, data: bpy.types.ID, colour: str) -> bpy.types.Object:
    """Adds an object of a colour to the scene."""
    made = bpy.data.objects.new(name, data)
    data.materials.append(material_of(colour))
    bpy.context.collection.objects.link(made)
    return made


def add_lines(lines: np.ndarray, colour: str, thickness: float, height: float) -> None:
    """Adds lines (n, 2, 2)."""
    curve = bpy.data.curves.new("lines", "CURVE")
    curve.dimensions, curve.bevel_depth = "3D", thickness
    for line in lines:
        points = curve.splines.new("POLY").points
        points.add(1)
        for point, (x, y) in zip(points, line):
            point.co = (x, y, height, 1)
    add("lines", curve, colour)


def add_charts(uvs: np.ndarray, right: float, caption: str) -> None:
    """Adds a drawing of quads (m, 4, 2) of UVs, moved to the right, and its caption."""
    corners = uvs + (right, 0)
    mesh = bpy.data.meshes.new("faces")
    points = [(x, y, 0) for x, y in corners.reshape(-1, 2).tolist()]
    mesh.from_pydata(points, [], np.arange(len(points)).reshape(-1, 4).tolist())
    add("faces", mesh, FACE)
    sides = np.stack([corners, np.roll(corners, -1, 1)], 2).reshape(-1, 2, 2)
    keys = [frozenset(map(tuple, side)) for side in sides.round(6).tolist()]
    uses = Counter(keys)
    is_rim = np.array([uses[key] == 1 for key in keys])
    add_lines(sides[~is_rim], EDGE, 0.006, 0.1)
    add_lines(sides[is_rim], RIM, 0.014, 0.2)
    text = bpy.data.curves.new("text", "FONT")
    text.body, text.align_x, text.size = caption, "CENTER", 0.2
    add("text", text, TEXT).location = (right, -1.42, 0)


def render(path: str) -> None:
    """Renders what was added, seen from above, to a file."""
    scene = bpy.context.scene
    camera = bpy.data.cameras.new("camera")
    camera.type, camera.ortho_scale = "ORTHO", 3.02 * SPACING
    scene.camera = bpy.data.objects.new("camera", camera)
    scene.camera.location = (SPACING, -0.2, 5)
    scene.collection.objects.link(scene.camera)
    scene.world.node_tree.nodes["Background"].inputs["Color"].default_value = (1, 1, 1, 1)
    scene.view_settings.view_transform = "Standard"
    scene.render.engine = "CYCLES"
    scene.cycles.samples, scene.cycles.use_denoising, scene.cycles.max_bounces = 16, False, 0
    scene.render.threads_mode, scene.render.threads = "FIXED", 1
    scene.render.resolution_x, scene.render.resolution_y, scene.render.resolution_percentage = WIDTH, HEIGHT, 100
    scene.render.dither_intensity = 0
    scene.render.image_settings.color_mode, scene.render.image_settings.compression = "RGB", 100
    scene.render.filepath = path
    bpy.ops.render.render(write_still=True)


def main() -> None:
    """Makes the three drawings, and writes the picture to the path behind `--`."""
    drillolive_blender.register()
    clear()
    bpy.context.scene.world.use_nodes = True
    source = touching_charts()
    add_modifier(source, levels=DEPTH, uv_smooth="SMOOTH_ALL")
    made = refined(source)
    meshes = (source.data, evaluated(source), made.data)
    drawings = [quads_of(mesh).uvs.reshape(-1, 4, 2).astype(float) for mesh in meshes]
    for item in (source, made):
        bpy.data.objects.remove(item)
    for place, (uvs, caption) in enumerate(zip(drawings, CAPTIONS)):
        add_charts(uvs, SPACING * place, caption)
    render(str(Path(sys.argv[sys.argv.index("--") + 1]).resolve()))


main()
