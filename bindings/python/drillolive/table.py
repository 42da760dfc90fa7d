"""Tables: how each point of a level is made of the points of the mesh, its controls."""

from __future__ import annotations

from array import array
from ctypes import byref, c_size_t, c_uint32
from dataclasses import dataclass
from fractions import Fraction
from functools import cached_property
from typing import Any, Callable

from . import table_file
from ._calls import Handle, new_handle, place_in
from ._interface import Form
from .arrays import Memory, memory_of
from .evaluation import apply_arrays, apply_handle, controls_of, exact_sums
from .exact import wides_at
from .rows import Rows
from .run import output_text
from .table_arrays import TableArrays, exact_arrays, exact_sections, rounded_arrays

WIDE_SIZE, START_SIZE = 16, 4


@dataclass(frozen=True)
class RowRange:
    """Some of the rows of a table: those from `first` up to, and without, `last`."""

    table: Table
    first: int
    last: int

    def __matmul__(self, points: Any) -> Any:
        """Returns the points of these rows, as `Table.__matmul__` returns those of all rows."""
        return self.table.apply(points, self.first, self.last)


class Table:
    """A table. `table @ points` gives the points of the level for any pose of the mesh.

    Entry e of row r, from starts[r] up to starts[r + 1], gives the share values[e] to the control indices[e]; all are
    counted from 0. The first rows are those of the points of the mesh. `values` are the nearest doubles, or floats,
    of the exact shares. Arrays are those of numpy, read-only and not copied, and keep the table. Without numpy they
    are lists. Threads may share a table.
    """

    def __init__(self, held: TableArrays, form: Form, handle: Handle | None, make_exact: Callable[[], Handle]) -> None:
        """Keeps the arrays of a table, its handle where the library evaluates it, and how its exact rows are made."""
        self._arrays, self._form, self._handle, self._make_exact = held, form, handle, make_exact

    def __repr__(self) -> str:
        return f"<drillolive.Table: {self.shape[0]} rows, {self.shape[1]} controls>"

    # ---- New tables ----

    @classmethod
    def of_rows(cls, rows: Rows, floats: bool = False) -> Table:
        """Returns the table of rows of a mesh."""
        form = Form.floats if floats else Form.doubles
        handle = rows.table(form)
        return cls(rounded_arrays(handle, form), form, handle, lambda: rows.table(Form.exact))

    @classmethod
    def from_text(cls, text: bytes | str) -> Table:
        """Reads a stored table, as `far stencils` writes it. TableError: the text is none, or more follows it."""
        exact = stored_handle(text.encode() if isinstance(text, str) else bytes(text))
        return cls(exact_arrays(exact), Form.doubles, None, lambda: exact)

    @classmethod
    def load(cls, source: table_file.File) -> Table:
        """Reads a table that `save` wrote. TableError: the file has none. OSError: it cannot be read."""
        held = table_file.read(source)
        form = Form.floats if held["values"].code == "f" else Form.doubles
        return cls(table_file.arrays_of(held), form, None, lambda: stored_handle(table_file.text_of(held)))

    def save(self, target: table_file.File, exact: bool = True) -> None:
        """Writes the table as an .npz file, which `load` and numpy.load read.

        Its arrays are `shape` (rows, controls), `starts`, `indices` and `values`. With `exact` it also has `numerators`
        (entries, 2) and `denominators` (rows, 2): each number has two words of 64 bits, the low one first.
        OSError: the file cannot be written.
        """
        sections = {"shape": memory_of(array("q", self.shape)), **self._arrays.memory}
        table_file.write(target, {**sections, **(exact_sections(self._exact) if exact else {})})

    def text(self) -> str:
        """Returns the stored table, as `far stencils` writes it."""
        return output_text(new_handle("output", "table_write", self._exact))

    # ---- What the table has ----

    @property
    def shape(self) -> tuple[int, int]:
        """How many rows and how many controls there are."""
        return self._arrays.rows, self._arrays.controls

    @property
    def starts(self) -> Any:
        """Where the entries of each row start, and where those of the last row end."""
        return self._arrays.starts

    @property
    def indices(self) -> Any:
        """The control of each entry."""
        return self._arrays.indices

    @property
    def values(self) -> Any:
        """The weight of each entry."""
        return self._arrays.values

    @cached_property
    def weights(self) -> Any:
        """The weights as a scipy.sparse.csr_matrix over the same memory. ImportError: scipy is not installed."""
        from scipy.sparse import csr_matrix  # slow to import, so that only those wait who ask for it

        structure = (self.values, self.indices.view("<i4"), self.starts.view("<i4"))
        return csr_matrix(structure, shape=self.shape, copy=False)

    @cached_property
    def _exact(self) -> Handle:
        return self._make_exact()

    def exact_row(self, row: int) -> list[tuple[int, Fraction]]:
        """Returns the entries of a row: each a control and its exact share. The shares sum to 1.

        PlaceError: there is no such row.
        """
        place, handle = place_in(row, "row", self._arrays.rows), self._exact
        first, last = (c_uint32 * 2).from_address(handle.get("starts") + START_SIZE * place)
        controls = Memory(handle.get("indices"), "I", (0,), handle).part(first, last - first).numbers()
        numerators = wides_at(handle.get("numerators") + WIDE_SIZE * first, last - first)
        denominator = wides_at(handle.get("denominators") + WIDE_SIZE * place, 1)[0]
        return [(control, Fraction(number, denominator)) for control, number in zip(controls, numerators)]

    # ---- Evaluation ----

    def __matmul__(self, points: Any) -> Any:
        """Returns the points of all rows for points of the controls, an array (rows, columns).

        `points` have one row for each control, of 1 to 16 numbers; or are flat, and so is the result then. Each number
        is summed in the order of the entries, so that the result is the same with numpy, with scipy and without.
        ArgumentError: there are more or fewer points than controls.
        """
        return self.apply(points, 0, self._arrays.rows)

    def rows(self, first: int, last: int) -> RowRange:
        """Returns the rows from `first` up to, and without, `last`, for `rows(first, last) @ points`."""
        return RowRange(self, first, last)

    def apply(self, points: Any, first: int, last: int) -> Any:
        """Returns the points of the rows from `first` up to, and without, `last`. PlaceError: a row is not there."""
        controls = controls_of(points, self._form)
        if self._handle is None:
            return apply_arrays(self._arrays, controls, first, last)
        return apply_handle(self._handle, self._form, self._arrays, controls, first, last)

    def exact(self, points: Any) -> list[tuple[Fraction, ...]]:
        """Returns the points of all rows as fractions. `points` are floats, whole numbers or fractions.

        ArgumentError: there are more or fewer points than controls. ExactOverflowError: a sum has more than 128 bits.
        """
        return exact_sums(self._exact, self._arrays, points)


def stored_handle(text: bytes) -> Handle:
    """Returns the handle of a stored table. TableError: the text is none, or more follows it."""
    used = c_size_t()
    handle = new_handle("table", "table_new_stored", text, len(text), byref(used))
    if text[used.value :].strip():
        raise table_file.table_error("more text follows the table", "Give the text of the table alone.")
    return handle
