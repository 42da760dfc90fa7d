"""Calls of the library: their faults as exceptions, and their handles as objects."""

from __future__ import annotations

import operator
import weakref
from ctypes import byref, c_void_p, create_string_buffer
from typing import Any, Mapping

from ._interface import GREATEST_INDEX, FaultRecord
from ._library import library
from .errors import STATUSES, Error, Fault, argument_error, error_of, place_error

LINE_ROOM = 256


def fault_of(record: FaultRecord) -> Fault:
    """Returns a fault of the library, with its line and its advice."""
    line = create_string_buffer(LINE_ROOM)
    library().drillolive_fault_line(record, line, LINE_ROOM)
    advice = library().drillolive_fault_advice(record).decode()
    status, _ = STATUSES.get(record.status, (str(record.status), Error))
    return Fault(status, record.kind, record.first, record.second, line.value.decode(), advice)


def call(name: str, *arguments: Any) -> None:
    """Makes a call, and raises the exception of its fault where there is one."""
    record = getattr(library(), f"drillolive_{name}")(*arguments)
    if record.status:
        raise error_of(fault_of(record))


class Handle:
    """A handle of the library. It is freed when nothing refers to this object any more."""

    def __init__(self, kind: str, address: int) -> None:
        self._as_parameter_ = c_void_p(address)
        self.kind = kind
        # The process gives its memory back by itself when it ends.
        weakref.finalize(self, getattr(library(), f"drillolive_{kind}_free"), address).atexit = False

    def get(self, name: str, *arguments: Any) -> Any:
        """Returns what an accessor of the handle gives, such as the address of an array."""
        return getattr(library(), f"drillolive_{self.kind}_{name}")(self, *arguments)

    def count(self, counts: Any) -> Any:
        """Fills a structure of counts, and returns it."""
        call(f"{self.kind}_count", self, byref(counts))
        return counts


def new_handle(kind: str, name: str, *arguments: Any) -> Handle:
    """Makes a call whose last argument gets a new handle, and returns the handle."""
    address = c_void_p()
    call(name, *arguments, byref(address))
    return Handle(kind, address.value or 0)


def whole(value: Any, what: str, least: int = 0, greatest: int = GREATEST_INDEX) -> int:
    """Returns a whole number within bounds. ArgumentError: it is none, or is out of bounds."""
    advice = f"Give a {what} from {least} to {greatest}."
    try:
        number = operator.index(value)
    except TypeError:
        raise argument_error(f"{what} {value!r} is not a whole number", advice) from None
    if not least <= number <= greatest:
        raise argument_error(f"{what} {number} is out of range", advice)
    return number


def choice(value: Any, what: str, choices: Mapping[str, int]) -> int:
    """Returns the number of a word. ArgumentError: the word is none of the choices."""
    if not isinstance(value, str) or value not in choices:
        raise argument_error(f"{what} {value!r} is not known", f"Give one of: {', '.join(choices)}.")
    return choices[value]


def place_in(value: Any, what: str, count: int) -> int:
    """Returns a place among so many, where -1 is the last. PlaceError: it is not there."""
    place = operator.index(value)
    if not -count <= place < count:
        raise place_error(what, place, count)
    return place % count
