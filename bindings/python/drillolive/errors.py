"""Faults of the library, and the exceptions that carry them."""

from __future__ import annotations

from dataclasses import dataclass

# The kind of the status "range" that stands for an index.
RANGE_INDEX = 1


@dataclass(frozen=True)
class Fault:
    """A fault: what is wrong, and where.

    `status` is one of the words of `STATUSES`, and `kind` a number among the faults of that status. `first` and
    `second` are the numbers that the fault names, 0 where it names none: a face, a point, both ends of an edge, a
    line or a place. Faces, points and places are counted from 0, and lines from 1. `line` is the line of the program
    `far`, and `advice` one sentence on what to do.
    """

    status: str
    kind: int
    first: int
    second: int
    line: str
    advice: str

    @property
    def cause(self) -> str:
        """The line without the name of the program before it."""
        return self.line.partition(": ")[2] or self.line


class Error(Exception):
    """A call was refused. `fault` tells what is wrong, `line` is the program's line, and `advice` says what to do."""

    def __init__(self, fault: Fault) -> None:
        super().__init__(fault)
        self.fault = fault

    @property
    def line(self) -> str:
        """The line of the program `far` on this fault."""
        return self.fault.line

    @property
    def advice(self) -> str:
        """One sentence on what to do about the fault."""
        return self.fault.advice

    def __str__(self) -> str:
        return f"{self.line}. {self.advice}"


class ObjError(Error):
    """A line of OBJ text is not understood. `fault.first` is the line, counted from 1."""


class MeshError(Error):
    """The mesh is no manifold, or one of its arrays names what is not there.

    `fault.first` and `fault.second` say where.
    """


class TooLargeError(Error):
    """A count passes the limit of the library."""


class ExactOverflowError(Error):
    """An exact number has more than 128 bits."""


class LimitError(Error):
    """A point has no limit. `fault.first` is the point, counted from 0."""


class TableError(Error):
    """A stored table is no table, or belongs to another mesh."""


class ArgumentError(Error, ValueError):
    """An argument is not one that the call takes."""


class NumberError(Error, ValueError):
    """A number is not finite, or too wide to be kept exactly.

    `fault.first` is its place in the array, counted from 0.
    """


class PlaceError(Error, IndexError):
    """A face, a point or a row is not there, or the face has no patch."""


class OutOfMemoryError(Error, MemoryError):
    """Memory ran out."""


class LibraryNotFound(ImportError):
    """The shared library is not found, or is not the one that this package expects."""


# The name of each status of `enum drillolive_status`, and the exception that it raises.
STATUSES: dict[int, tuple[str, type[Error]]] = {
    0: ("done", Error),
    1: ("too short", Error),
    2: ("usage", ArgumentError),
    3: ("read", Error),
    4: ("long", TooLargeError),
    5: ("obj", ObjError),
    6: ("mesh", MeshError),
    7: ("too large", TooLargeError),
    8: ("overflow", ExactOverflowError),
    9: ("limit", LimitError),
    10: ("write", Error),
    11: ("memory", OutOfMemoryError),
    13: ("place", PlaceError),
    14: ("table", TableError),
    15: ("differs", TableError),
    16: ("controls", TableError),
    17: ("bad arrays", MeshError),
    18: ("bad number", NumberError),
    19: ("bad argument", ArgumentError),
    20: ("null", ArgumentError),
    21: ("kind", ArgumentError),
    22: ("range", ArgumentError),
}


def error_of(fault: Fault) -> Error:
    """Returns the exception of a fault, whose class tells its status."""
    if fault.status == "range" and fault.kind == RANGE_INDEX:
        return PlaceError(fault)
    return dict(STATUSES.values()).get(fault.status, Error)(fault)


def argument_error(cause: str, advice: str) -> ArgumentError:
    """Returns the exception of an argument that never reaches the library."""
    return ArgumentError(Fault("bad argument", 0, 0, 0, f"drillolive: {cause}", advice))


def number_error(kind: int, place: int, cause: str, advice: str) -> NumberError:
    """Returns the exception of a number at a place, counted from 0.

    Kind 0 is a number that is not finite, and 1 a wide one.
    """
    return NumberError(Fault("bad number", kind, place, 0, f"drillolive: number {place} {cause}", advice))


def place_error(what: str, place: int, count: int) -> PlaceError:
    """Returns the exception of an item that is not there: `count` items are, counted from 0."""
    advice = f"Give a {what} from 0 to {count - 1}." if count else f"There is no {what} at all."
    return PlaceError(Fault("range", RANGE_INDEX, place, count, f"drillolive: {what} {place} is not there", advice))
