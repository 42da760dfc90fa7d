"""Reads the file of a mesh, or standard input."""

from __future__ import annotations

import difflib
import sys
from pathlib import Path

from .failure import CommandError, reason_of
from .output import STANDARD

# How files of other programs begin.
BEGINNINGS = {
    b"ply": "a PLY file",
    b"OFF": "an OFF file",
    b"glTF": "a glTF file",
    b"{": "a glTF file, or another JSON text",
    b"Kaydara FBX": "an FBX file",
    b"; FBX": "an FBX file",
    b"BLENDER": "a Blender file",
    b"<?xml": "an XML text, such as COLLADA",
    b"<COLLADA": "a COLLADA file",
    b"#usda": "a USD file",
    b"PXR-USDC": "a USD file",
    b"PK\x03\x04": "a zip archive",
    b"\x1f\x8b": "a gzip archive",
    b"\x28\xb5\x2f\xfd": "a zstd archive",
    b"\xff\xfe": "a text in UTF-16",
    b"\xfe\xff": "a text in UTF-16",
}
EXPORT = "Export the mesh as an OBJ file of polygons."
LEAST_LIKENESS = 0.75  # of a name that is offered in the place of another one
STL_HEADER, STL_TRIANGLE = 84, 50  # how many bytes a binary STL file has, and each triangle of it


def name_of(path: str | None) -> str:
    """Returns how a message names a file."""
    return "standard input" if path is None or path == STANDARD else path


def read_source(path: str | None) -> bytes:
    """Returns the bytes of a file, or of standard input where the path is `-` or None.

    Raises CommandError where they cannot be read, or are those of a file that is no OBJ file.
    """
    name = name_of(path)
    if name != path and sys.stdin.isatty():
        print("drillolive: reads a mesh from the terminal; Ctrl-D ends it", file=sys.stderr)
    try:
        data = Path(path or "").read_bytes() if name == path else sys.stdin.buffer.read()
    except OSError as error:
        raise CommandError(f"{name}: {reason_of(error)}", _advice_on_path(path or "", error)) from error
    other = format_of(data)
    if other:
        raise CommandError(f"{name}: this is {other}, and only OBJ is read", EXPORT)
    return data


def format_of(data: bytes) -> str:
    """Returns what other file begins so, or an empty text where an OBJ file may."""
    if data[:5] == b"solid" and b"facet" in data[:4096] or _is_binary_stl(data):
        return "an STL file"
    return next((name for beginning, name in BEGINNINGS.items() if data.startswith(beginning)), "")


def _is_binary_stl(data: bytes) -> bool:
    triangles = int.from_bytes(data[STL_HEADER - 4 : STL_HEADER], "little")
    return triangles > 0 and len(data) == STL_HEADER + STL_TRIANGLE * triangles


def _advice_on_path(path: str, error: OSError) -> str:
    """Returns a sentence on a file that cannot be read: the nearest name in its folder, where there is one."""
    file = Path(path)
    if isinstance(error, IsADirectoryError):
        return "Name a file in this folder."
    if not isinstance(error, FileNotFoundError):
        return "Check that you may read it."
    if not file.parent.is_dir():
        return f"There is no folder {file.parent}."
    names = [other.name for other in file.parent.iterdir() if other.is_file()]
    near = difflib.get_close_matches(file.name, names, 1, LEAST_LIKENESS)
    return f"Did you mean {file.with_name(near[0])}?" if near else "Check the name and the folder."
