"""The points of a table: rows of weights, evaluated over the numbers of its controls."""

from __future__ import annotations

from array import array
from dataclasses import dataclass
from fractions import Fraction
from itertools import chain
from typing import Any

from . import arrays
from ._calls import Handle, call
from ._interface import Form
from .arrays import CODES, Memory, as_doubles, flatten, in_tuples, is_numpy, memory_of, memory_of_numpy
from .arrays import new_memory, own_array
from .errors import argument_error, place_error
from .exact import common_denominator, ratio, wide_words, wides_at
from .table_arrays import TableArrays

# How many numbers a control has at most: COMPONENT_LIMIT of the library.
GREATEST_COLUMNS = 16


@dataclass(frozen=True)
class Controls:
    """The numbers of controls, as doubles or floats. `is_flat` says that the caller gave one number for each."""

    memory: Memory
    rows: int
    columns: int
    is_flat: bool


def is_flat_list(values: Any) -> bool:
    """Returns whether a list has numbers, and not rows of them."""
    return len(values) > 0 and not hasattr(values[0], "__iter__")


def controls_of(values: Any, form: Form) -> Controls:
    """Returns the numbers of controls, of which a numpy array with the right type is not copied.

    ArgumentError: they are no numbers in one or two dimensions.
    """
    code = CODES[form]
    if is_numpy(values):
        if values.ndim not in (1, 2):
            raise argument_error(f"points have the shape {values.shape}", "Give an array (n, columns), or (n,).")
        columns = values.shape[1] if values.ndim == 2 else 1
        return Controls(memory_of_numpy(values, code), values.shape[0], columns, values.ndim == 1)
    held = list(values)
    if is_flat_list(held):
        return Controls(as_doubles(held, code), len(held), 1, True)
    numbers, rows, columns = flatten(held, None, "points")
    return Controls(as_doubles(numbers, code), rows, columns, False)


def check(table: TableArrays, controls: Controls, first: int, last: int) -> None:
    """Refuses what a table does not take. ArgumentError: other controls. PlaceError: a row that is not there."""
    if controls.rows != table.controls:
        cause = f"there are {controls.rows} points, and the table has {table.controls} controls"
        raise argument_error(cause, "Give one point for each control.")
    if not 1 <= controls.columns <= GREATEST_COLUMNS:
        advice = f"Give 1 to {GREATEST_COLUMNS} numbers for each control."
        raise argument_error(f"the points have {controls.columns} numbers each", advice)
    if not 0 <= first <= last <= table.rows:
        raise place_error("row", last if first <= last else first, table.rows)


def apply_handle(handle: Handle, form: Form, table: TableArrays, controls: Controls, first: int, last: int) -> Any:
    """Returns rows from `first` up to, and without, `last` of a table that the library has."""
    check(table, controls, first, last)
    room = new_memory(CODES[form], (last - first, controls.columns))
    sizes = (controls.rows, controls.columns, first, last)
    call(f"table_apply_{form.name}", handle, controls.memory, *sizes, room)
    return shaped(own_array(room), controls)


def apply_arrays(table: TableArrays, controls: Controls, first: int, last: int) -> Any:
    """Returns rows from `first` up to, and without, `last`.

    Each is summed in the order of its entries, as the library does it. Without numpy sums of floats are rounded last.
    """
    check(table, controls, first, last)
    if arrays.numpy is not None:
        points = controls.memory.array().reshape(controls.rows, controls.columns)
        return shaped(numpy_sums(table, points, first, last), controls)
    points = in_tuples(controls.memory.numbers(), controls.columns)
    sums = chain.from_iterable(row_sum(table, row, points, controls.columns) for row in range(first, last))
    return shaped(in_tuples(array(controls.memory.code, sums), controls.columns), controls)


def shaped(made: Any, controls: Controls) -> Any:
    """Returns rows flat where the controls were flat."""
    if not controls.is_flat:
        return made
    return [row[0] for row in made] if arrays.numpy is None else made[:, 0]


def row_sum(table: TableArrays, row: int, points: list[tuple[float, ...]], columns: int) -> tuple[float, ...]:
    """Returns one row, without numpy."""
    sums = [0.0] * columns
    for entry in range(table.starts[row], table.starts[row + 1]):
        weight, point = table.values[entry], points[table.indices[entry]]
        for column in range(columns):
            sums[column] += weight * point[column]
    return tuple(sums)


def numpy_sums(table: TableArrays, points: Any, first: int, last: int) -> Any:
    """Returns rows: the first entries of all rows are summed, then the second of those that have one, and so on."""
    numpy = arrays.numpy
    begins = table.starts[first:last].astype(numpy.int64)
    sizes = table.starts[first + 1 : last + 1] - begins
    sums = numpy.zeros((last - first, points.shape[1]), points.dtype)
    for place in range(int(sizes.max(initial=0))):
        rows = numpy.nonzero(sizes > place)[0]
        at = begins[rows] + place
        sums[rows] += table.values[at, None] * points[table.indices[at]]
    return sums


def exact_sums(handle: Handle, table: TableArrays, values: Any) -> list[tuple[Fraction, ...]]:
    """Returns all rows of an exact table as fractions, over exact numbers of controls."""
    held = values.tolist() if is_numpy(values) else list(values)
    numbers, count, columns = flatten(held, None, "points")
    numerators, denominator = common_denominator([ratio(number, place) for place, number in enumerate(numbers)])
    words, room = memory_of(wide_words(numerators)), new_memory("Q", (2 * table.rows * columns,))
    check(table, Controls(words, count, columns, False), 0, table.rows)
    call("table_apply_exact", handle, words, count, columns, 0, table.rows, room)
    whole = iter(wides_at(room.address, table.rows * columns))
    rows = zip(wides_at(handle.get("denominators"), table.rows), *[whole] * columns)
    return [tuple(Fraction(number, scale * denominator) for number in row) for scale, *row in rows]
