"""Tells faults in the lines and numbers of a file."""

from __future__ import annotations

from collections.abc import Iterator
from contextlib import contextmanager

from ..errors import Error, Fault
from .failure import CommandError
from .obj_file import ObjFile, ObjFileError
from .source import name_of

LISTS_ALL = "`drillolive check` lists all faults of a mesh."


@contextmanager
def in_file(path: str | None, file: ObjFile | None = None) -> Iterator[None]:
    """Turns a refusal of the reader or of the library into a CommandError in the lines and numbers of a file."""
    try:
        yield
    except ObjFileError as error:
        raise CommandError(f"{name_of(path)}: {error}", "Correct this line of the file.") from error
    except Error as error:
        raise CommandError(f"{name_of(path)}: {sentences_in_file(error.fault, file)}") from error


def sentences_in_file(fault: Fault, file: ObjFile | None) -> str:
    """Returns what is wrong and what to do. Of a mesh with several faults it is the first one."""
    if file is None:
        return f"{fault.cause}. {fault.advice}"
    if fault.status == "mesh":
        from .faults import sentences_of_faults  # which tells some faults in the way of this module

        return f"{sentences_of_faults(file)[0]} {LISTS_ALL}"
    return f"{cause_in_file(fault, file)}. {fault.advice}"


def cause_in_file(fault: Fault, file: ObjFile) -> str:
    """Returns what is wrong: faces by their lines, and points from 1 as the file counts them."""
    first, second = fault.first, fault.second
    if (fault.status, fault.kind) in {("mesh", 0), ("mesh", 1), ("too large", 2)}:
        rest = fault.cause.replace("vertex", "point").partition(f"face {first} ")[2]
        return f"line {file.face_lines[first]}: this face {rest}"
    if fault.status in ("mesh", "too large", "limit") and f"vertex {first} " in fault.cause:
        rest = fault.cause.partition(f"vertex {first} ")[2]
        if fault.status == "limit":
            return f"point {first + 1} of the level {rest}"
        return f"line {file.point_lines[first]}: point {first + 1} {rest}"
    return fault.cause
