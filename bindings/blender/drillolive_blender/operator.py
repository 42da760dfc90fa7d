"""The operator that refines the active object."""

from __future__ import annotations

from types import ModuleType
from typing import Any

import bpy
from bpy.props import BoolProperty, EnumProperty, IntProperty, StringProperty

from . import faults, package, results
from .meshes import Cage, read_cage
from .preferences import folder_of
from .refinement import Refinement, finest_grid, is_too_long
from .settings import BOUNDARY_ITEMS, DEPTHS, GRID_BITS, UV_ITEMS, Settings, defaults_of, triangle_count
from .words import counted

# The properties that a Subdivision modifier gives where they are not set.
FROM_MODIFIER = ("depth", "limit", "uv_smooth", "boundary_smooth", "use_creases")

# Each run reads its defaults anew, and nothing is left of the run before.
FRESH = {"SKIP_SAVE"}


class DRILLOLIVE_OT_refine(bpy.types.Operator):
    """Makes a new object: the mesh of the active object, refined exactly by the rules of Catmull and Clark"""

    bl_idname = "object.drillolive_refine"
    bl_label = "Refine Exactly"
    bl_options = {"REGISTER", "UNDO"}

    depth: IntProperty(  # type: ignore[valid-type]
        name="Depth", description="How many steps", default=2, min=DEPTHS[0], max=DEPTHS[1], options=FRESH
    )
    limit: BoolProperty(  # type: ignore[valid-type]
        name="Limit", description="Put the points where further steps take them in the end", options=FRESH
    )
    uv_smooth: EnumProperty(  # type: ignore[valid-type]
        name="UV Smooth", items=UV_ITEMS, default="PRESERVE_BOUNDARIES", options=FRESH
    )
    boundary_smooth: EnumProperty(  # type: ignore[valid-type]
        name="Boundary Smooth", items=BOUNDARY_ITEMS, default="ALL", options=FRESH
    )
    use_creases: BoolProperty(  # type: ignore[valid-type]
        name="Use Creases", description="Edges and vertices are sharp by their creases", default=True, options=FRESH
    )
    use_grid: BoolProperty(  # type: ignore[valid-type]
        name="Round to Grid", description="Round coordinates, UVs and sharpness to multiples of a step", options=FRESH
    )
    grid_bits: IntProperty(  # type: ignore[valid-type]
        name="Grid Bits",
        description="The step is 2 to the power of minus this",
        default=20,
        min=GRID_BITS[0],
        max=GRID_BITS[1],
        options=FRESH,
    )
    hide_original: BoolProperty(  # type: ignore[valid-type]
        name="Hide Original", description="Hide the original object in the viewport", default=True, options=FRESH
    )
    offer: StringProperty(options={"SKIP_SAVE", "HIDDEN"})  # type: ignore[valid-type]

    @classmethod
    def poll(cls, context: bpy.types.Context) -> bool:
        """Returns whether a mesh object is active."""
        source = context.active_object
        return source is not None and source.type == "MESH" and context.mode in {"OBJECT", "EDIT_MESH"}

    def invoke(self, context: bpy.types.Context, event: Any) -> set[str]:
        """Shows the settings before it refines."""
        self.take_defaults(context.active_object)
        self.is_asking = not bpy.app.background  # without a window nobody answers
        return context.window_manager.invoke_props_dialog(self, width=400)

    def draw(self, context: bpy.types.Context) -> None:
        """Draws the settings, and how many triangles they make."""
        layout = self.layout
        layout.use_property_split = True
        if self.offer:
            for line in self.offer.splitlines():
                layout.label(text=line, icon="INFO")
        for name in (*FROM_MODIFIER, "use_grid", *(["grid_bits"] if self.use_grid else []), "hide_original"):
            layout.prop(self, name)
        source = context.active_object
        if source is not None and source.type == "MESH":
            count = triangle_count(len(source.data.loops), self.depth)
            layout.label(text=counted(count, "triangle"), icon="MESH_DATA")

    def execute(self, context: bpy.types.Context) -> set[str]:
        """Refines, and selects the new object; or reports why it cannot be done."""
        source = context.active_object
        if source.mode != "OBJECT":
            bpy.ops.object.mode_set(mode="OBJECT")
        words = self.take_defaults(source)
        try:
            library = package.load(folder_of(context))
        except package.PackageNotFound as error:
            return self.refuse(str(error))
        cage, settings = read_cage(source), self.settings()
        try:
            refinement = Refinement(library, cage, settings)
            made = results.new_object(source, cage, settings, refinement)
        except library.Error as error:
            if is_too_long(library, error):
                return self.offer_grid(library, cage, settings, error)
            if isinstance(error, library.MeshError):
                return self.show_faults(library, source, cage, error)
            other = " Or turn off Limit." if isinstance(error, library.LimitError) else ""
            return self.refuse(f"{error.fault.cause}. {error.advice}{other}")
        results.show_alone(context, made, source, self.hide_original)
        if settings.grid_bits is not None:
            words.append(f"rounding to multiples of 2^-{settings.grid_bits} changed {refinement.changes.text()}")
        words += results.words_on_rest(source, cage)
        faces = counted(len(made.data.polygons), "face")
        self.report({"WARNING" if words else "INFO"}, "; ".join([f"{made.name}: {faces}", *words]))
        return {"FINISHED"}

    # ---- Settings ----

    def take_defaults(self, source: bpy.types.Object) -> list[str]:
        """Sets the properties that are not set from the object's modifier. It returns a word on what has no equal."""
        defaults, words = defaults_of(source)
        for name in FROM_MODIFIER:
            if not self.properties.is_property_set(name):
                setattr(self, name, getattr(defaults, name))
        return words

    def settings(self) -> Settings:
        """Returns the settings of the properties."""
        held = {name: getattr(self, name) for name in FROM_MODIFIER}
        return Settings(**held, grid_bits=self.grid_bits if self.use_grid else None)

    # ---- Refusals ----

    def refuse(self, line: str) -> set[str]:
        """Reports why nothing was done."""
        self.report({"ERROR"}, line)
        return {"CANCELLED"}

    def show_faults(self, library: ModuleType, source: bpy.types.Object, cage: Cage, error: Any) -> set[str]:
        """Reports all faults of a mesh that is no manifold, and selects what they name."""
        found = library.Mesh(cage.points, (cage.sizes, cage.corners)).check() or [error.fault]
        faults.select(source, faults.elements_of(found))
        self.report({"ERROR"}, faults.text_of(found))
        return {"FINISHED"}

    def offer_grid(self, library: ModuleType, cage: Cage, settings: Settings, error: Any) -> set[str]:
        """Says what a grid would change where numbers are too long, and asks again where a user is there to answer."""
        found = finest_grid(library, cage, settings)
        if found is None:
            return self.refuse(f"{error.fault.cause}. {error.advice}")
        bits, changes = found
        sentences = [
            f"{error.fault.cause}.",
            f"The numbers have too many digits to stay exact at depth {settings.depth}.",
            f"Rounding to multiples of 2^-{bits} would do.",
            f"It changes {changes.text()} by at most {0.5 ** (bits + 1):.1e}.",
        ]
        if not getattr(self, "is_asking", False):
            return self.refuse(" ".join([*sentences, f"Turn on Round to Grid with {bits} Grid Bits."]))
        held = {name: getattr(self, name) for name in (*FROM_MODIFIER, "hide_original")}
        offer = {"use_grid": True, "grid_bits": bits, "offer": "\n".join(sentences)}
        bpy.ops.object.drillolive_refine("INVOKE_DEFAULT", **held, **offer)
        return {"CANCELLED"}
