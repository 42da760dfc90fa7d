"""A plain, slow reference of stored tables: read, compared with the table of a mesh, and applied to points.

It is written from the definitions of `subdiv_model` (ReadTable) and `far_model` (Stored), with `fractions.Fraction` for every
value, and shares nothing with the program. `tests/reference/reference.py` answers `verify` and `apply` through it.
"""

from __future__ import annotations

import re
from dataclasses import dataclass
from typing import BinaryIO, NoReturn

from reference.level import accepted, overflow
from reference.mask import GREATEST_NUMBER, MOST_ENTRIES
from reference.obj import MARK, Mesh, words_of
from reference.run import BAD_TABLE, GREATEST_INPUT, OTHER_COUNT, OTHER_TABLE, Refusal, mesh_of, refuse_length
from reference.table import Row, table
from reference.text import line, point_lines

MOST_CONTROLS, MOST_ROWS = 2**20, 2**27
NUMBER = rb"(0|[1-9][0-9]*)"
HEADER = re.compile(rb"table controls " + NUMBER + rb" rows " + NUMBER + rb" entries " + NUMBER)
ROW = re.compile(rb"s " + NUMBER + rb"(?: " + NUMBER + rb" " + NUMBER + rb")*")


@dataclass
class Stored:
    """A table that was read: its controls, its rows, and how many bytes and lines its text has."""

    controls: int
    rows: list[Row]
    size: int

    @property
    def lines(self) -> int:
        return 1 + len(self.rows)


def refuse_table(number: int, cause: str) -> NoReturn:
    raise Refusal(BAD_TABLE, f"far: line {number}: {cause}")


# Reading


def line_from(data: bytes, start: int, number: int) -> bytes:
    """The line that begins there, where LF closes it."""
    end = data.find(b"\n", start)
    if end < 0:
        refuse_table(number, "table form")
    return data[start:end]


def read_header(text: bytes, number: int) -> tuple[int, int, int]:
    match = HEADER.fullmatch(text)
    if not match:
        refuse_table(number, "table form")
    controls, rows, listed = map(int, match.groups())
    if controls > MOST_CONTROLS or rows > MOST_ROWS or listed > MOST_ENTRIES:
        refuse_table(number, "table number out of range")
    if rows == 0 and listed > 0:
        refuse_table(number, "table entry count")
    return controls, rows, listed


def is_in_range(denominator: int, pairs: list[tuple[int, int]], controls: int) -> bool:
    """Whether all terms are within their bounds, and the controls ascend and are there."""
    places = [control for control, _ in pairs]
    terms = [denominator] + [numerator for _, numerator in pairs]
    return (
        all(1 <= term <= GREATEST_NUMBER for term in terms)
        and all(before < after for before, after in zip(places, places[1:]))
        and all(place < controls for place in places)
    )


def read_row(text: bytes, number: int, controls: int) -> Row:
    if not ROW.fullmatch(text):
        refuse_table(number, "table form")
    denominator, *listed = map(int, text.split(b" ")[1:])
    pairs = list(zip(listed[::2], listed[1::2]))
    if not is_in_range(denominator, pairs, controls):
        refuse_table(number, "table number out of range")
    if sum(numerator for _, numerator in pairs) != denominator:
        refuse_table(number, "table row does not sum")
    return Row(dict(pairs), denominator)


def read_stored(data: bytes, before: int = 0) -> Stored:
    """The table whose text the data begins with, behind this many lines, or the Refusal of its first bad line."""
    text = line_from(data, 0, before + 1)
    controls, count, listed = read_header(text, before + 1)
    start, rows, found = len(text) + 1, [], 0
    for place in range(count):
        number = before + 2 + place
        text = line_from(data, start, number)
        row = read_row(text, number, controls)
        found += len(row.numerators)
        if found > listed or (place + 1 == count and found < listed):
            refuse_table(number, "table entry count")
        rows.append(row)
        start += len(text) + 1
    return Stored(controls, rows, start)


# Answers


def read_all(source: BinaryIO) -> bytes:
    data = source.read(GREATEST_INPUT + 1)
    if len(data) > GREATEST_INPUT:
        refuse_length()
    return data


def parted(data: bytes) -> tuple[bytes, bytes, int]:
    """The mesh of an input, the table behind it, and how many lines are before the table."""
    start, count = len(MARK) if data.startswith(MARK) else 0, 0
    while start < len(data):
        end = data.find(b"\n", start) % (len(data) + 1)
        if words_of(data[start:end])[:1] == [b"table"]:
            break
        start, count = min(end + 1, len(data)), count + 1
    return data[:start], data[start:], count


def terms(row: Row) -> tuple[int, list[tuple[int, int]]]:
    return row.denominator, list(row.numerators.items())


def differing_row(stored: Stored, controls: int, rows: list[Row]) -> int | None:
    """The first row at which a stored table differs from these, or None."""
    if stored.controls != controls:
        return 0
    for place in range(max(len(stored.rows), len(rows))):
        pair = stored.rows[place : place + 1] + rows[place : place + 1]
        if len(pair) < 2 or terms(pair[0]) != terms(pair[1]):
            return place
    return None


def verified_text(source: BinaryIO, depth: int) -> str:
    """The text of an input with the table of its mesh, or its Refusal."""
    mesh_text, table_text, before = parted(read_all(source))
    obj = mesh_of(mesh_text)
    _, rows = table(accepted(obj, depth), obj, depth)
    stored = read_stored(table_text, before)
    if stored.size < len(table_text):
        refuse_table(before + stored.lines + 1, "table form")
    place = differing_row(stored, len(obj.points), rows)
    if place is not None:
        raise Refusal(OTHER_TABLE, f"far: row {place} differs")
    return line("table agrees", len(rows))


def check_controls(stored: Stored, obj: Mesh) -> None:
    """Refuses points that are not as many as the controls, or too great for the denominators of the rows."""
    if len(obj.points) != stored.controls:
        raise Refusal(OTHER_COUNT, f"far: {len(obj.points)} control points given")
    greatest = max([obj.common] + [abs(axis) for point in obj.points for axis in point])
    if max((row.denominator for row in stored.rows), default=1) * greatest > GREATEST_NUMBER:
        raise overflow("positions", 0, "value")


def applied_text(source: BinaryIO) -> str | None:
    """The text of a table over the points behind it, or its Refusal."""
    data = read_all(source)
    stored = read_stored(data)
    obj = mesh_of(data[stored.size :], before=stored.lines)
    check_controls(stored, obj)
    points = (tuple(axis / obj.common for axis in row.value(obj.points)) for row in stored.rows)
    return "".join(point_lines("v", points, None))
