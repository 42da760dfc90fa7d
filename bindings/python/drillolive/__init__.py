"""Exact Catmull-Clark refinement of polygon meshes, with semi-sharp creases.

    mesh = drillolive.Mesh.from_obj("cube.obj")
    level = mesh.refine(2)          # level.points, level.faces
    table = mesh.table(2)
    frame = table @ mesh.points     # the points of the level for any pose of the mesh

numpy and scipy are used where they are installed. Without numpy arrays are lists.
"""

from __future__ import annotations

from .errors import (
    ArgumentError,
    Error,
    ExactOverflowError,
    Fault,
    LibraryNotFound,
    LimitError,
    MeshError,
    NumberError,
    ObjError,
    OutOfMemoryError,
    PlaceError,
    TableError,
    TooLargeError,
)
from .mesh import Mesh
from .refined import Origins, Refined, Texture
from .run import Run, run
from .session import Session
from .sparse import FACE_KINDS, SparseLevel, SparseLevels
from .table import RowRange, Table

__all__ = [
    "ArgumentError",
    "Error",
    "ExactOverflowError",
    "FACE_KINDS",
    "Fault",
    "LibraryNotFound",
    "LimitError",
    "Mesh",
    "MeshError",
    "NumberError",
    "ObjError",
    "Origins",
    "OutOfMemoryError",
    "PlaceError",
    "Refined",
    "RowRange",
    "Run",
    "Session",
    "SparseLevel",
    "SparseLevels",
    "Table",
    "TableError",
    "Texture",
    "TooLargeError",
    "run",
]


def __getattr__(name: str) -> str:
    """Returns the version of the library as `__version__`, for which the library is loaded.

    LibraryNotFound: it is not found.
    """
    if name == "__version__":
        from ._library import library

        return str(library().drillolive_version().decode())
    raise AttributeError(f"module {__name__!r} has no attribute {name!r}")
