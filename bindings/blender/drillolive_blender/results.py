"""Makes the new object of a refinement."""

from __future__ import annotations

import bpy

from .attributes import write_colours, write_edges, write_faces, write_groups, write_keys
from .meshes import Cage, write_mesh
from .refinement import Refinement
from .settings import Settings, subdivision_of
from .textures import write_uv_maps
from .words import counted

# Properties of a mesh that older versions have, and that are copied where they are there.
MESH_PROPERTIES = ("use_auto_smooth", "auto_smooth_angle")

# Attributes of Blender's own: what they say is refined, or is what makes a mesh.
BUILT_IN = {"position", "material_index", "sharp_face", "sharp_edge", "crease_edge", "crease_vert", "custom_normal"}


def new_object(source: bpy.types.Object, cage: Cage, settings: Settings, refinement: Refinement) -> bpy.types.Object:
    """Returns a new object with the refined mesh, in the collections of the source and with its other modifiers.

    Nothing new is left where an exception is raised, such as the library's Error.
    """
    name = f"{source.name} {'limit' if settings.limit else 'depth'} {settings.depth}"
    quads = refinement.level.corners.reshape(-1, 4)
    mesh = write_mesh(name, refinement.points, quads, cage.edges[cage.loose_edges])
    try:
        fill_mesh(mesh, source.data, refinement)
        made = object_with(mesh, source)
        write_edges(made, source.data, cage, refinement, settings.depth)
        write_groups(made, source, refinement)
        write_keys(made, source, refinement)
    except BaseException:
        bpy.data.meshes.remove(mesh)  # Blender removes the object with it
        raise
    return made


def fill_mesh(mesh: bpy.types.Mesh, old: bpy.types.Mesh, refinement: Refinement) -> None:
    """Writes materials, UV maps, colours and properties of a new mesh."""
    write_faces(mesh, old, refinement.face_parents)
    write_uv_maps(mesh, refinement.uv_maps, old)
    write_colours(mesh, old, refinement)
    for name in MESH_PROPERTIES:
        if hasattr(old, name):
            setattr(mesh, name, getattr(old, name))


def object_with(mesh: bpy.types.Mesh, source: bpy.types.Object) -> bpy.types.Object:
    """Returns a copy of an object with another mesh, and without its Subdivision modifier."""
    made = source.copy()
    made.name, made.data = mesh.name, mesh
    modifier = subdivision_of(made)
    if modifier is not None:
        made.modifiers.remove(modifier)
    for collection in source.users_collection:
        collection.objects.link(made)
    return made


def words_on_rest(source: bpy.types.Object, cage: Cage) -> list[str]:
    """Returns a word on each thing of an object that is not refined with it."""
    words = []
    mesh = source.data
    if mesh.has_custom_normals:
        words.append("custom normals are dropped")
    if len(cage.loose_edges):
        words.append(f"{counted(len(cage.loose_edges), 'loose edge')} kept undivided")
    if len(cage.loose_points):
        words.append(f"{counted(len(cage.loose_points), 'loose point')} kept")
    dropped = other_attributes(mesh)
    if dropped:
        words.append(f"attributes are dropped: {', '.join(dropped)}")
    if mesh.shape_keys and mesh.shape_keys.animation_data:
        words.append("animation and drivers of shape keys are dropped")
    earlier = earlier_modifiers(source)
    if earlier:
        words.append(f"modifiers before Subdivision act on the refined mesh: {', '.join(earlier)}")
    return words


def other_attributes(mesh: bpy.types.Mesh) -> list[str]:
    """Returns the names of the attributes that a user gave a mesh, but for those that are refined."""
    refined = {layer.name for held in (mesh.color_attributes, mesh.uv_layers) for layer in held}
    names = [attribute.name for attribute in mesh.attributes]
    return [name for name in names if name not in refined | BUILT_IN and not name.startswith(".")]


def earlier_modifiers(source: bpy.types.Object) -> list[str]:
    """Returns the names of the modifiers before the Subdivision modifier."""
    names = [modifier.name for modifier in source.modifiers]
    modifier = subdivision_of(source)
    return names[: names.index(modifier.name)] if modifier else []


def show_alone(context: bpy.types.Context, made: bpy.types.Object, source: bpy.types.Object, is_hiding: bool) -> None:
    """Selects the new object and makes it active. With `is_hiding` it hides the source in the viewport."""
    for other in context.selected_objects:
        other.select_set(False)
    made.select_set(True)
    context.view_layer.objects.active = made
    if is_hiding:
        source.hide_set(True)
