"""How an object is to be refined: the operator's properties, and those of a Subdivision modifier that mean the same."""

from __future__ import annotations

from dataclasses import dataclass, replace
from typing import Any

import bpy

DEPTHS = (1, 6)

# The library makes levels of at most 2^22 quads.
MOST_TRIANGLES = 2 * 2**22

# A grid has a step of 2 to the power of minus so many bits.
GRID_BITS = (0, 126)

# The names of Blender's modifier, and the words of the library.
UV_MODES = {
    "NONE": "linear",
    "PRESERVE_CORNERS": "corners",
    "PRESERVE_BOUNDARIES": "boundaries",
    "SMOOTH_ALL": "smooth",
}
BOUNDARY_MODES = {"ALL": "edge_only", "PRESERVE_CORNERS": "edge_and_corner"}

# The items of the operator's menus: Blender's identifiers, names and descriptions.
UV_ITEMS = [
    ("NONE", "None", "UVs are not smoothed, boundaries are kept sharp"),
    ("PRESERVE_CORNERS", "Keep Corners", "UVs are smoothed, corners on discontinuous boundary are kept sharp"),
    ("PRESERVE_BOUNDARIES", "Keep Boundaries", "UVs are smoothed, boundaries are kept sharp"),
    ("SMOOTH_ALL", "All", "UVs and boundaries are smoothed"),
]
BOUNDARY_ITEMS = [
    ("PRESERVE_CORNERS", "Keep Corners", "Smooth boundaries, but corners are kept sharp"),
    ("ALL", "All", "Smooth boundaries, including corners"),
]


@dataclass(frozen=True)
class Settings:
    """What is asked for. `grid_bits` is None where nothing is rounded, else 2^-grid_bits is the step of the grid."""

    depth: int = 2
    limit: bool = False
    uv_smooth: str = "PRESERVE_BOUNDARIES"
    boundary_smooth: str = "ALL"
    use_creases: bool = True
    grid_bits: int | None = None

    def on_grid(self, bits: int) -> Settings:
        """Returns these settings with a grid of step 2^-bits."""
        return replace(self, grid_bits=bits)


def subdivision_of(source: bpy.types.Object) -> Any:
    """Returns the first Subdivision modifier of an object, or None."""
    return next((modifier for modifier in source.modifiers if modifier.type == "SUBSURF"), None)


def defaults_of(source: bpy.types.Object) -> tuple[Settings, list[str]]:
    """Returns the settings that mean the same as the object's modifier, and a word on each that has no equal."""
    modifier = subdivision_of(source)
    if modifier is None:
        return Settings(), []
    words = []
    uv_smooth = modifier.uv_smooth
    if uv_smooth not in UV_MODES:
        words.append("UVs keep corners alone: no other junction of charts is kept")
        uv_smooth = "PRESERVE_CORNERS"
    if modifier.subdivision_type != "CATMULL_CLARK":
        words.append("the modifier's type Simple is taken as Catmull-Clark")
    settings = Settings(
        depth=min(max(modifier.levels, DEPTHS[0]), DEPTHS[1]),
        limit=modifier.use_limit_surface,
        uv_smooth=uv_smooth,
        boundary_smooth=modifier.boundary_smooth,
        use_creases=modifier.use_creases,
    )
    return settings, words


def triangle_count(corner_count: int, depth: int) -> int:
    """Returns how many triangles the level at a depth, from 1, of a mesh of so many corners of faces has."""
    return 2 * corner_count * 4 ** (depth - 1)
