"""Numbers in memory: those of the library as numpy arrays or lists, and those of the caller for the library."""

from __future__ import annotations

import operator
from array import array
from ctypes import c_double, c_float, c_int64, c_uint8, c_uint32, c_uint64
from dataclasses import dataclass
from fractions import Fraction
from itertools import chain
from math import prod
from numbers import Integral, Rational, Real
from typing import Any, Iterable, Sequence

from ._interface import GREATEST_INDEX, Form
from .errors import ArgumentError, argument_error, number_error
from .exact import common_denominator, on_grid, ratio, signed_words

try:
    import numpy
except ImportError:  # arrays are lists then
    numpy = None  # type: ignore[assignment]

C_TYPES = {"d": c_double, "f": c_float, "I": c_uint32, "B": c_uint8, "Q": c_uint64, "q": c_int64}
NUMPY_TYPES = {"d": "<f8", "f": "<f4", "I": "<u4", "B": "|u1", "Q": "<u8", "q": "<i8"}
CODES = {Form.doubles: "d", Form.floats: "f"}

# Each whole number up to this amount is a double.
GREATEST_WHOLE_DOUBLE = 2**53
LEAST_INT64, GREATEST_INT64, GREATEST_UINT64 = -(2**63), 2**63 - 1, 2**64 - 1


@dataclass(frozen=True)
class Memory:
    """Numbers in memory, which stays as long as `owner` does. `code` is that of the module array: d, f, I, B or Q."""

    address: int | None
    code: str
    shape: tuple[int, ...]
    owner: object

    @property
    def _as_parameter_(self) -> int | None:
        """The address, as which a call takes this memory."""
        return self.address

    @property
    def __array_interface__(self) -> dict[str, Any]:
        """What numpy reads of this memory: nothing is copied, and nothing may be written."""
        return {"data": (self.address, True), "shape": self.shape, "typestr": NUMPY_TYPES[self.code], "version": 3}

    def array(self) -> Any:
        """Returns a numpy array over this memory, which keeps it. Without numpy it returns a list."""
        if numpy is None:
            return self.listed()
        if not prod(self.shape):
            return numpy.zeros(self.shape, NUMPY_TYPES[self.code])
        return numpy.asarray(self)

    def numbers(self) -> list[Any]:
        """Returns all numbers in a list."""
        count = prod(self.shape)
        return (C_TYPES[self.code] * count).from_address(self.address)[:] if count else []

    def listed(self) -> list[Any]:
        """Returns a list of numbers, or of tuples of numbers where there are two dimensions."""
        return self.numbers() if len(self.shape) == 1 else in_tuples(self.numbers(), self.shape[1])

    def part(self, start: int, count: int) -> Memory:
        """Returns the memory of so many rows from a row on."""
        row = prod(self.shape[1:]) * array(self.code).itemsize
        address = None if self.address is None else self.address + start * row
        return Memory(address, self.code, (count, *self.shape[1:]), self.owner)


def in_tuples(numbers: Iterable[Any], columns: int) -> list[tuple[Any, ...]]:
    """Returns numbers in tuples of so many."""
    return list(zip(*[iter(numbers)] * columns))


def new_memory(code: str, shape: tuple[int, ...]) -> Memory:
    """Returns memory of its own, for the library to write."""
    if numpy is not None:
        room = numpy.empty(shape, NUMPY_TYPES[code])
        return Memory(room.ctypes.data, code, shape, room)
    return memory_of(array(code, bytes(prod(shape) * array(code).itemsize)), shape)


def memory_of(numbers: array[Any], shape: tuple[int, ...] | None = None) -> Memory:
    """Returns the memory of an array of the module array."""
    return Memory(numbers.buffer_info()[0] or None, numbers.typecode, shape or (len(numbers),), numbers)


def own_array(memory: Memory) -> Any:
    """Returns the array that was made by `new_memory`, which the caller may write; or lists."""
    return memory.listed() if numpy is None else memory.owner


def is_numpy(values: Any) -> bool:
    """Returns whether this is an array of numpy."""
    return numpy is not None and isinstance(values, numpy.ndarray)


def memory_of_numpy(values: Any, code: str) -> Memory:
    """Returns the memory of a numpy array, which is copied only where it has another type or order."""
    held = numpy.ascontiguousarray(values, NUMPY_TYPES[code])
    return Memory(held.ctypes.data, code, held.shape, held)


def indices_of(values: Any, what: str) -> Memory:
    """Returns whole numbers from 0 to 2^32 - 1 as memory. ArgumentError: a value is none, named by `what`."""
    if is_numpy(values) and values.dtype.kind in "iu":
        if values.size and (values.min() < 0 or values.max() > GREATEST_INDEX):
            raise index_error(values.ravel().tolist(), what)
        return memory_of_numpy(values.ravel(), "I")
    held = values.ravel().tolist() if is_numpy(values) else list(values)
    if bool in set(map(type, held)):
        raise index_error(held, what)
    try:
        return memory_of(array("I", held))
    except (TypeError, OverflowError):
        raise index_error(held, what) from None


def is_index(value: Any) -> bool:
    """Returns whether a value is a whole number from 0 to 2^32 - 1. A truth value is none: masks are no indices."""
    return hasattr(value, "__index__") and not isinstance(value, bool) and 0 <= operator.index(value) <= GREATEST_INDEX


def index_error(values: list[Any], what: str) -> ArgumentError:
    """Returns the exception of the first value that is no index."""
    place, value = next((place, value) for place, value in enumerate(values) if not is_index(value))
    advice = f"Give each {what} as a whole number from 0 to {GREATEST_INDEX}."
    return argument_error(f"{what} {place} is {value!r}", advice)


@dataclass(frozen=True)
class Numbers:
    """Rows of numbers for the library: doubles, floats, or numerators of 64 bits (code q) over one denominator.

    `rounded` says how many exact numbers were changed by a grid. The library rounds doubles and floats by itself.
    """

    form: Form
    memory: Memory
    rows: int
    columns: int
    denominator: int = 1
    rounded: int = 0

    def fractions(self) -> list[Fraction]:
        """Returns all numbers exactly. NumberError: one is not finite."""
        numbers = enumerate(self.memory.numbers())
        return [Fraction(*ratio(number, place)) / self.denominator for place, number in numbers]

    def as_doubles(self) -> Memory:
        """Returns all numbers as doubles: floats exactly, and exact numbers rounded to the nearest."""
        if self.form == Form.doubles:
            return self.memory
        if self.form == Form.exact:
            return as_doubles(self.fractions())
        if is_numpy(self.memory.owner):
            return memory_of_numpy(self.memory.owner, "d")
        return as_doubles(self.memory.numbers())


def flatten(rows: Any, columns: int | None, what: str) -> tuple[list[Any], int, int]:
    """Returns the numbers of rows, how many rows there are, and how many numbers each has.

    ArgumentError: the rows are of unlike lengths, or have not so many numbers as `columns`.
    """
    try:
        held = [row if isinstance(row, (tuple, list)) else tuple(row) for row in rows]
    except TypeError:
        advice = "Give a list of rows, such as [(0, 0, 1), (1, 0, 1)]."
        raise argument_error(f"{what} are no rows of numbers", advice) from None
    lengths = set(map(len, held)) or {columns or 1}
    wanted = columns or next(iter(lengths))
    if lengths != {wanted}:
        odd = next(place for place, row in enumerate(held) if len(row) != wanted)
        advice = f"Give {wanted} numbers in each row."
        raise argument_error(f"row {odd} of the {what} has {len(held[odd])} numbers, and not {wanted}", advice)
    return list(chain.from_iterable(held)), len(held), wanted


def is_double(number: Any) -> bool:
    """Returns whether a number is a float of any kind that is a double, or a whole number that is one."""
    if isinstance(number, float):
        return True
    if isinstance(number, Integral):
        return -GREATEST_WHOLE_DOUBLE <= number <= GREATEST_WHOLE_DOUBLE
    is_float = isinstance(number, Real) and not isinstance(number, Rational)
    return is_float and (number != number or float(number) == number)


def are_doubles(numbers: Sequence[Any]) -> bool:
    """Returns whether each number is a double."""
    return set(map(type, numbers)) <= {float} or all(map(is_double, numbers))


def as_doubles(numbers: Sequence[Any], code: str = "d") -> Memory:
    """Returns numbers as the nearest doubles, or floats for the code f. ArgumentError: one is none, or is too great."""
    try:
        return memory_of(array(code, numbers))
    except (TypeError, OverflowError) as fault:
        advice = "Give floats, whole numbers or fractions.Fraction."
        raise argument_error(f"a number is none: {fault}", advice) from None


def exact_rows(numbers: Sequence[Any], rows: int, columns: int, grid_bits: int | None) -> Numbers:
    """Returns numbers as numerators of 64 bits over one denominator. NumberError: one does not fit."""
    ratios = [ratio(number, place) for place, number in enumerate(numbers)]
    held = ratios if grid_bits is None else [on_grid(number, grid_bits) for number in ratios]
    numerators, denominator = common_denominator(held)
    advice = "Give numbers whose numerators over their common denominator fit 64 bits, or give floats."
    if denominator > GREATEST_UINT64:
        place = next(place for place, (_, part) in enumerate(held) if part > 1)
        raise number_error(1, place, f"is too wide: the common denominator {denominator} has more than 64 bits", advice)
    for place, numerator in enumerate(numerators):
        if not LEAST_INT64 <= numerator <= GREATEST_INT64:
            raise number_error(1, place, f"is too wide: its numerator {numerator} has more than 64 bits", advice)
    rounded = sum(old != new for old, new in zip(ratios, held))
    return Numbers(Form.exact, memory_of(signed_words(numerators)), rows, columns, denominator, rounded)


def listed_rows(numbers: Sequence[Any], rows: int, columns: int, grid_bits: int | None) -> Numbers:
    """Returns a list of numbers as doubles where all of them are, else as numerators over one denominator."""
    if are_doubles(numbers):
        return Numbers(Form.doubles, as_doubles(numbers), rows, columns)
    return exact_rows(numbers, rows, columns, grid_bits)


def numpy_rows(values: Any, columns: int | None, what: str, grid_bits: int | None) -> Numbers:
    """Returns a numpy array of two dimensions as rows of numbers. Floats and doubles are not copied."""
    if values.ndim != 2 or (columns and values.shape[1] != columns):
        wanted = f"(n, {columns})" if columns else "of two dimensions"
        raise argument_error(f"{what} have the shape {values.shape}", f"Give an array {wanted}.")
    rows, width = values.shape
    if values.dtype.kind == "f" and values.dtype.itemsize <= 8:
        form = Form.doubles if values.dtype.itemsize == 8 else Form.floats
        return Numbers(form, memory_of_numpy(values, CODES[form]), rows, width)
    return listed_rows(values.ravel().tolist(), rows, width, grid_bits)


def rows_of(values: Any, columns: int | None, what: str, grid_bits: int | None = None) -> Numbers:
    """Returns rows of numbers as the library takes them: floats as they are, and other numbers exactly.

    With `grid_bits` exact numbers are rounded to multiples of 2^-grid_bits, of two as near to the even one.
    ArgumentError: the rows have another shape, or a value is no number. NumberError: a number does not fit.
    """
    if is_numpy(values):
        return numpy_rows(values, columns, what, grid_bits)
    return listed_rows(*flatten(values, columns, what), grid_bits)


def exact_doubles(values: Iterable[Any], what: str) -> Memory:
    """Returns numbers as doubles. NumberError: one is none, such as 1/3."""
    held = list(values)
    for place, value in enumerate([] if are_doubles(held) else held):
        if not is_double(value) and ratio(value, place) != float(value).as_integer_ratio():
            raise number_error(1, place, f"of the {what} is no double: {value}", "Round it to a float first.")
    return as_doubles(held)
