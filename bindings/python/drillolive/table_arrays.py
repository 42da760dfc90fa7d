"""The arrays of a table: those of a handle of the library, or those that were read from a file."""

from __future__ import annotations

from array import array
from functools import cached_property
from typing import Any

from ._calls import Handle, call
from ._interface import Form, Fractions, TableCounts, Wide
from .arrays import CODES, Memory, memory_of, new_memory

ONE = Wide(1, 0)


class TableArrays:
    """The arrays of a table: where each row starts, and the control and the weight of each entry.

    `memory` has them by these names: starts, indices and values. They are made arrays, or lists, when they are asked
    for.
    """

    def __init__(self, controls: int, starts: Memory, indices: Memory, values: Memory) -> None:
        """Keeps the memory of the arrays. There is one start more than rows."""
        self.controls, self.rows, self.entries = controls, starts.shape[0] - 1, indices.shape[0]
        self.memory = {"starts": starts, "indices": indices, "values": values}

    @cached_property
    def starts(self) -> Any:
        """Where the entries of each row start, and where those of the last row end."""
        return self.memory["starts"].array()

    @cached_property
    def indices(self) -> Any:
        """The control of each entry."""
        return self.memory["indices"].array()

    @cached_property
    def values(self) -> Any:
        """The weight of each entry."""
        return self.memory["values"].array()


def structure_of(handle: Handle) -> tuple[TableCounts, Memory, Memory]:
    """Returns the counts of a handle of a table, its starts and its indices."""
    counts = handle.count(TableCounts())
    starts = Memory(handle.get("starts"), "I", (counts.rows + 1,), handle)
    return counts, starts, Memory(handle.get("indices"), "I", (counts.entries,), handle)


def rounded_arrays(handle: Handle, form: Form) -> TableArrays:
    """Returns the arrays of a table of doubles or floats."""
    counts, starts, indices = structure_of(handle)
    values = Memory(handle.get(form.name), CODES[form], (counts.entries,), handle)
    return TableArrays(counts.controls, starts, indices, values)


def exact_arrays(handle: Handle) -> TableArrays:
    """Returns the arrays of an exact table, with the doubles nearest to its weights."""
    counts, starts, indices = structure_of(handle)
    values, spread = new_memory("d", (counts.entries,)), spread_denominators(handle, counts.rows, starts)
    fractions = Fractions(handle.get("numerators"), counts.entries, spread.address, 1, ONE)
    call("nearest_doubles", fractions, values)
    return TableArrays(counts.controls, starts, indices, values)


def spread_denominators(handle: Handle, rows: int, starts: Memory) -> Memory:
    """Returns the denominator of the row of each entry, in two words."""
    words, places = Memory(handle.get("denominators"), "Q", (2 * rows,), handle).numbers(), starts.numbers()
    spread = array("Q")
    for row in range(rows):
        spread.extend(array("Q", words[2 * row : 2 * row + 2]) * (places[row + 1] - places[row]))
    return memory_of(spread)


def exact_sections(handle: Handle) -> dict[str, Memory]:
    """Returns the numerators and the denominators of an exact table, each in two words, the low one first."""
    counts = handle.count(TableCounts())
    shapes = {"numerators": (counts.entries, 2), "denominators": (counts.rows, 2)}
    return {name: Memory(handle.get(name), "Q", shape, handle) for name, shape in shapes.items()}
