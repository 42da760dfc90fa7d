"""Files of tables: arrays in the format .npz of numpy, which is written and read here without numpy."""

from __future__ import annotations

import ast
import struct
import zipfile
from array import array
from ctypes import string_at
from math import prod
from os import PathLike
from typing import Any, BinaryIO, Mapping, Union

from .arrays import NUMPY_TYPES, Memory, memory_of
from .errors import Fault, TableError
from .exact import wides_at
from .table_arrays import TableArrays

File = Union[str, "PathLike[str]", BinaryIO]

MAGIC = b"\x93NUMPY"
HEADER_ALIGNMENT = 64

# The arrays of a file: their types, by the letters of the module array, and how many dimensions they have.
SECTIONS = {"shape": ("q", 1), "starts": ("I", 1), "indices": ("I", 1), "values": ("df", 1)}
EXACT_SECTIONS = {"numerators": ("Q", 2), "denominators": ("Q", 2)}

ADVICE = "Give a file that `save` wrote, or make the table again from its mesh."


def table_error(cause: str, advice: str = ADVICE) -> TableError:
    """Returns the exception of a file or a text that is no table."""
    return TableError(Fault("table", 0, 0, 0, f"drillolive: {cause}", advice))


# ---- Writing ----


def header_of(memory: Memory) -> bytes:
    """Returns what stands before the numbers of an array in the format .npy, version 1.0."""
    text = f"{{'descr': '{NUMPY_TYPES[memory.code]}', 'fortran_order': False, 'shape': {memory.shape!r}, }}"
    length = len(MAGIC) + 4 + len(text) + 1
    padded = text + " " * (-length % HEADER_ALIGNMENT) + "\n"
    return MAGIC + b"\x01\x00" + struct.pack("<H", len(padded)) + padded.encode("latin-1")


def write(target: File, sections: Mapping[str, Memory]) -> None:
    """Writes arrays as an .npz file, the same bytes each time."""
    with zipfile.ZipFile(target, "w", zipfile.ZIP_STORED) as file:
        for name, memory in sections.items():
            size = prod(memory.shape) * array(memory.code).itemsize
            with file.open(zipfile.ZipInfo(f"{name}.npy"), "w", force_zip64=True) as section:
                section.write(header_of(memory))
                section.write(string_at(memory.address, size) if size else b"")


# ---- Reading ----


def memory_of_npy(data: bytes, codes: str, dimensions: int) -> Memory:
    """Returns an array in the format .npy that has one of these types. ValueError: it has another form."""
    if data[:6] != MAGIC:
        raise ValueError("no array")
    start = 10 if data[6] == 1 else 12
    end = start + int.from_bytes(data[8:start], "little")
    header = ast.literal_eval(data[start:end].decode("latin-1").strip())
    code = next((code for code in codes if NUMPY_TYPES[code] == header["descr"]), None)
    shape = tuple(int(size) for size in header["shape"])
    if code is None or header["fortran_order"] or len(shape) != dimensions:
        raise ValueError(f"an array of {header['descr']} and the shape {shape}")
    numbers = array(code)
    numbers.frombytes(data[end:])
    if len(numbers) != prod(shape):
        raise ValueError("an array that was cut off")
    return memory_of(numbers, shape)


def read(source: File) -> dict[str, Memory]:
    """Reads the arrays of a table from an .npz file. TableError: it has none, or they do not fit together."""
    try:
        with zipfile.ZipFile(source) as file:
            names = {name[: -len(".npy")] for name in file.namelist()}
            wanted = {**SECTIONS, **(EXACT_SECTIONS if names.issuperset(EXACT_SECTIONS) else {})}
            held = {name: memory_of_npy(file.read(f"{name}.npy"), *kind) for name, kind in wanted.items()}
    except (zipfile.BadZipFile, KeyError, ValueError, SyntaxError, IndexError, struct.error) as fault:
        raise table_error(f"the file is no table: {fault}") from None
    check(held)
    return held


def check(held: Mapping[str, Memory]) -> None:
    """Refuses arrays that do not fit together. TableError: they do not."""
    shape, starts, indices = (held[name].numbers() for name in ("shape", "starts", "indices"))
    entries = len(indices)
    fits = len(shape) == 2 and len(starts) == shape[0] + 1 and held["values"].shape == (entries,)
    fits = fits and starts[0] == 0 and starts[-1] == entries and all(map(int.__le__, starts, starts[1:]))
    if not fits or max(indices, default=-1) >= shape[1]:
        raise table_error("the arrays of the file do not fit together")
    exact = [held[name].shape for name in EXACT_SECTIONS if name in held]
    if exact and exact != [(entries, 2), (shape[0], 2)]:
        raise table_error("the exact weights of the file do not fit the others")


def arrays_of(held: Mapping[str, Memory]) -> TableArrays:
    """Returns the arrays of a table that was read."""
    return TableArrays(held["shape"].numbers()[1], held["starts"], held["indices"], held["values"])


def text_of(held: Mapping[str, Memory]) -> bytes:
    """Returns the stored table of arrays that were read, for the library to judge.

    TableError: they have no exact weights.
    """
    if "numerators" not in held:
        raise table_error("the file has no exact weights", "Save the table with its exact weights.")
    starts, indices = held["starts"].numbers(), held["indices"].numbers()
    rows, controls = held["shape"].numbers()
    numerators = wides_at(held["numerators"].address, len(indices))
    lines = [f"table controls {controls} rows {rows} entries {len(indices)}\n"]
    for row, denominator in enumerate(wides_at(held["denominators"].address, rows)):
        span = range(starts[row], starts[row + 1])
        words: list[Any] = [word for entry in span for word in (indices[entry], numerators[entry])]
        lines.append(" ".join(map(str, ["s", denominator, *words])) + "\n")
    return "".join(lines).encode()
