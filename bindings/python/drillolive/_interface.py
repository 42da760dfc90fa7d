"""What include/drillolive.h declares: its structures, and the types of its calls."""

from __future__ import annotations

from ctypes import CDLL, Structure, c_char_p, c_int, c_size_t, c_uint32, c_uint64, c_void_p
from enum import IntEnum


class FaultRecord(Structure):
    """`drillolive_fault`."""

    _fields_ = [("status", c_uint32), ("kind", c_uint32), ("first", c_uint64), ("second", c_uint64)]


class Wide(Structure):
    """`drillolive_wide`: an integer of 128 bits in two's complement."""

    _fields_ = [("low", c_uint64), ("high", c_uint64)]


class Faces(Structure):
    """`drillolive_faces`."""

    _fields_ = [("sizes", c_void_p), ("count", c_size_t), ("corners", c_void_p), ("corner_count", c_size_t)]


class Fractions(Structure):
    """`drillolive_fractions`."""

    _fields_ = [
        ("numerators", c_void_p),
        ("count", c_size_t),
        ("denominators", c_void_p),
        ("per", c_size_t),
        ("scale", Wide),
    ]


class MeshCounts(Structure):
    """`drillolive_mesh_counts`."""

    _fields_ = [(name, c_size_t) for name in ("points", "faces", "corners", "texture_values", "texture_corners")]
    _fields_ += [(name, c_size_t) for name in ("creases", "corner_tags", "holes")]


class Crease(Structure):
    """`drillolive_crease`."""

    _fields_ = [("first", c_uint32), ("second", c_uint32), ("sharpness_num", c_uint64), ("sharpness_den", c_uint64)]


class CornerTag(Structure):
    """`drillolive_corner_tag`."""

    _fields_ = [("point", c_uint32), ("sharpness_num", c_uint64), ("sharpness_den", c_uint64)]


class TableCounts(Structure):
    """`drillolive_table_counts`."""

    _fields_ = [(name, c_size_t) for name in ("controls", "rows", "entries")]


class LevelCounts(Structure):
    """`drillolive_level_counts`."""

    _fields_ = [(name, c_size_t) for name in ("points", "edges", "faces", "corners")]


class SparseCounts(Structure):
    """`drillolive_sparse_counts`."""

    _fields_ = [(name, c_size_t) for name in ("levels", "points", "faces", "corners")]


class Form(IntEnum):
    """`enum drillolive_form`: what numbers a table, points or sparse levels have."""

    doubles = 0
    floats = 1
    exact = 2


# The greatest number of 32 bits, as which the library takes indices and depths.
GREATEST_INDEX = 2**32 - 1

# The values of the enums, by the words that the package takes for them.
BOUNDARIES = {"none": 0, "edge_and_corner": 1, "edge_only": 2}
METHODS = {"normal": 0, "chaikin": 1}
SEAMS = {"smooth": 0, "corners": 1, "boundaries": 2, "linear": 3}
SELECTIONS = {"features": 0, "all": 1}

P, N, U = c_void_p, c_size_t, c_uint32  # a pointer, a size, and a number of 32 bits

# The arguments of each call that returns a fault.
FAULT_CALLS = {
    "mesh_new_doubles": (P, N, Faces, P),
    "mesh_new_floats": (P, N, Faces, P),
    "mesh_new_exact": (P, c_uint64, N, Faces, P),
    "mesh_new_grid_doubles": (P, N, Faces, U, P, P),
    "mesh_new_grid_floats": (P, N, Faces, U, P, P),
    "mesh_new_obj": (P, N, P),
    "mesh_set_creases": (P, P, P, N),
    "mesh_set_corner_tags": (P, P, P, N),
    "mesh_set_holes": (P, P, N),
    "mesh_set_boundary": (P, c_int),
    "mesh_set_method": (P, c_int),
    "mesh_set_texture_doubles": (P, P, N, P, N),
    "mesh_set_texture_floats": (P, P, N, P, N),
    "mesh_check": (P,),
    "mesh_faults": (P, P, N, P),
    "mesh_count": (P, P),
    "table_new_doubles": (P, U, P),
    "table_new_floats": (P, U, P),
    "table_new_exact": (P, U, P),
    "table_new_limit": (P, U, c_int, P),
    "table_new_patch": (P, U, U, U, c_int, P),
    "table_new_texture": (P, U, c_int, c_int, P),
    "table_count": (P, P),
    "table_apply_doubles": (P, P, N, N, N, N, P),
    "table_apply_floats": (P, P, N, N, N, N, P),
    "table_apply_exact": (P, P, N, N, N, N, P),
    "nearest_doubles": (Fractions, P),
    "nearest_floats": (Fractions, P),
    "table_new_stored": (P, N, P, P),
    "table_check": (P, U, P, N),
    "refine_doubles": (P, U, P),
    "refine_floats": (P, U, P),
    "refine_exact": (P, U, P),
    "points_new_limit": (P, U, c_int, P),
    "points_new_patch": (P, U, U, U, c_int, P),
    "points_new_texture": (P, U, c_int, c_int, P),
    "level_new": (P, U, P),
    "level_new_texture": (P, U, c_int, P),
    "level_count": (P, P),
    "origins_new": (P, U, P),
    "sparse_new": (P, U, c_int, c_int, P),
    "sparse_count": (P, P),
    "session_new": (P, U, U, P),
    "session_move_doubles": (P, P, P, N, P),
    "session_move_exact": (P, P, P, N),
    "session_read_doubles": (P, P, N, P),
    "session_read_floats": (P, P, N, P),
    "session_read_exact": (P, P, N, P, P),
    "run": (N, P, P, N, P),
    "table_write": (P, P),
}

# The accessors of arrays of a handle, which return their address.
ARRAY_CALLS = (
    ["mesh_face_sizes", "mesh_corners", "mesh_texture_corners"]
    + ["mesh_creases", "mesh_corner_tags", "mesh_holes"]
    + ["table_starts", "table_indices", "table_doubles", "table_floats", "table_numerators", "table_denominators"]
    + ["points_doubles", "points_floats", "points_numerators", "points_denominators"]
    + ["level_face_sizes", "level_corners", "level_edges", "level_holes"]
    + ["origins_kinds", "origins_numbers", "origins_face_parents"]
    + ["sparse_level_points", "sparse_level_faces", "sparse_kinds", "sparse_numbers"]
    + ["sparse_face_sizes", "sparse_corners"]
    + ["sparse_doubles", "sparse_floats", "sparse_numerators", "sparse_denominators"]
)

# The accessors that return a size.
SIZE_CALLS = (
    ["points_count", "points_components", "session_controls", "session_points"]
    + ["origins_points", "origins_faces"]
)

HANDLE_KINDS = ["mesh", "table", "points", "level", "origins", "sparse", "session", "output"]

OTHER_CALLS = {
    "version": (c_char_p, ()),
    "fault_line": (N, (FaultRecord, P, N)),
    "fault_advice": (c_char_p, (FaultRecord,)),
    "session_denominator": (Wide, (P,)),
    "session_take_changed": (P, (P, P)),
    "output_status": (c_uint32, (P,)),
    "output_text": (P, (P, P)),
    "output_error": (P, (P, P)),
}


def declare(library: CDLL) -> None:
    """Gives each call of the library its types. AttributeError: the library lacks a call."""
    signatures = {name: (FaultRecord, arguments) for name, arguments in FAULT_CALLS.items()}
    signatures.update({name: (P, (P,)) for name in ARRAY_CALLS})
    signatures.update({name: (N, (P,)) for name in SIZE_CALLS})
    signatures.update({f"{kind}_free": (None, (P,)) for kind in HANDLE_KINDS})
    signatures.update(OTHER_CALLS)
    for name, (result, arguments) in signatures.items():
        function = getattr(library, f"drillolive_{name}")
        function.restype, function.argtypes = result, arguments
