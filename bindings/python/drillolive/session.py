"""Sessions: the points of a level, which follow the points of the mesh as these move."""

from __future__ import annotations

import operator
from ctypes import byref, c_size_t, c_uint64
from fractions import Fraction
from threading import Lock
from typing import Any

from ._calls import Handle, call, new_handle
from ._interface import Form
from .arrays import CODES, Memory, Numbers, indices_of, memory_of, new_memory, own_array, rows_of
from .errors import argument_error, number_error
from .exact import fractions_at, wide_words


class Session:
    """The points of a level, which follow the points of the mesh, its controls, as these move.

    All numbers are exact inside.

    Controls and points are counted from 0. Threads may share a session: each call has it alone.
    """

    def __init__(self, mesh: Handle, depth: int, finer_bits: int) -> None:
        """Makes the session over the level at a depth."""
        self._handle = new_handle("session", "session_new", mesh, depth, finer_bits)
        self._lock = Lock()

    @property
    def denominator(self) -> int:
        """The denominator over which the numerators of controls stand."""
        wide = self._handle.get("denominator")
        return int(wide.high << 64 | wide.low)

    @property
    def control_count(self) -> int:
        """How many points the mesh has."""
        return int(self._handle.get("controls"))

    @property
    def point_count(self) -> int:
        """How many points the level has."""
        return int(self._handle.get("points"))

    def move(self, controls: Any, xyz: Any) -> int:
        """Moves controls to points (n, 3), rounded to multiples of 1 over `denominator`.

        Returns how many numbers were rounded.

        A single control has a single point. Of two moves of one control the last counts. Where a move is refused,
        none is made. PlaceError: a control is not there. NumberError: a number is not finite. ExactOverflowError: a
        point does not fit.
        """
        indices, numbers = self._moves(controls, xyz)
        if numbers.form == Form.exact or self.denominator & (self.denominator - 1):
            exact = numbers.fractions()
            wanted = [number * self.denominator for number in exact]
            self._move(indices, [round(number) for number in wanted])
            return sum(number.denominator != 1 for number in wanted)
        doubles, rounded = numbers.as_doubles(), c_uint64()
        with self._lock:
            call("session_move_doubles", self._handle, indices, doubles, numbers.rows, byref(rounded))
        return rounded.value

    def move_exact(self, controls: Any, xyz: Any) -> None:
        """Moves controls to points (n, 3), each number of which is a multiple of 1 over `denominator`.

        The numbers are whole numbers, fractions or floats.

        PlaceError: a control is not there. NumberError: a number is no such multiple. ExactOverflowError: a point
        does not fit.
        """
        indices, numbers = self._moves(controls, xyz)
        wanted = [number * self.denominator for number in numbers.fractions()]
        for place, number in enumerate(wanted):
            if number.denominator != 1:
                advice = "Round it first, call `move`, or make the session with more `finer_bits`."
                raise number_error(1, place, f"is no multiple of 1/{self.denominator}", advice)
        self._move(indices, [number.numerator for number in wanted])

    def take_changed(self) -> Any:
        """Returns the numbers of the points that changed since the last call, ascending, and forgets them."""
        count = c_size_t()
        with self._lock:
            address = self._handle.get("take_changed", byref(count))
            found = Memory(address, "I", (count.value,), self._handle).array()
            return found.copy()

    def points(self, numbers: Any = None) -> Any:
        """Returns points as the nearest doubles, an array (n, 3): those with these numbers, or all.

        PlaceError: one is not there.
        """
        return self._read(Form.doubles, numbers)

    def floats(self, numbers: Any = None) -> Any:
        """Returns points as the nearest floats, an array (n, 3): those with these numbers, or all.

        PlaceError: one is not there.
        """
        return self._read(Form.floats, numbers)

    def exact(self, numbers: Any = None) -> list[tuple[Fraction, ...]]:
        """Returns points as tuples of three fractions: those with these numbers, or all.

        PlaceError: one is not there.
        """
        chosen, count = self._chosen(numbers)
        numerators, denominators = new_memory("Q", (6 * count,)), new_memory("Q", (2 * count,))
        with self._lock:
            call("session_read_exact", self._handle, chosen, count, numerators, denominators)
        return fractions_at(numerators.address, denominators.address, count, 3)

    def _moves(self, controls: Any, xyz: Any) -> tuple[Memory, Numbers]:
        """Returns the controls of moves, and their points."""
        is_single = hasattr(controls, "__index__") and not hasattr(controls, "__len__")
        indices = indices_of([operator.index(controls)] if is_single else controls, "control")
        numbers = rows_of([xyz] if is_single else xyz, 3, "points")
        if indices.shape != (numbers.rows,):
            cause = f"there are {indices.shape[0]} controls and {numbers.rows} points"
            raise argument_error(cause, "Give one point for each control.")
        return indices, numbers

    def _move(self, indices: Memory, numerators: list[int]) -> None:
        """Moves controls to numerators over the denominator."""
        words = memory_of(wide_words(numerators))
        with self._lock:
            call("session_move_exact", self._handle, indices, words, *indices.shape)

    def _chosen(self, numbers: Any) -> tuple[Memory | None, int]:
        """Returns the numbers of the points that are asked for, None for all of them, and how many they are."""
        if numbers is None:
            return None, self.point_count
        chosen = indices_of(numbers, "point")
        return chosen, chosen.shape[0]

    def _read(self, form: Form, numbers: Any) -> Any:
        """Returns points as rounded numbers."""
        chosen, count = self._chosen(numbers)
        room = new_memory(CODES[form], (count, 3))
        with self._lock:
            call(f"session_read_{form.name}", self._handle, chosen, count, room)
        return own_array(room)
