"""A plain, slow reference of frames: a mesh whose control points are moved, line by line.

It is written from the definitions of `far_model` (Frames, Stream and Answer), with whole numbers, and shares nothing
with the program. `tests/reference/reference.py` answers `frames` through it.
"""

from __future__ import annotations

import re
from typing import BinaryIO, Iterator

from reference.level import POSITIONS, accepted, overflow
from reference.mask import GREATEST_NUMBER
from reference.obj import MARK, MOST_DIGITS, Fault, Mesh, read_numeral, words_of
from reference.run import GREATEST_INPUT, mesh_of, refuse_length, refuse_line
from reference.table import table

GREATEST_LINE = 2**16 - 1
DIGITS = re.compile(rb"\d+")


class Lines:
    """The lines of an input, of which no more is read than was asked for; `number` is that of the last, from 1."""

    def __init__(self, source: BinaryIO):
        self.source, self.left, self.number = source, GREATEST_INPUT, 0

    def next(self, most: int) -> bytes:
        """The next line with its LF, or so many bytes of a line that has more, and nothing where the input has ended; or
        the Refusal of an input that is too long."""
        data = self.source.readline(min(most, self.left + 1))
        if len(data) > self.left:
            refuse_length()
        self.left -= len(data)
        self.number += 1
        return data

    def of_mesh(self) -> tuple[bytes, bool]:
        """The bytes before the line `frames`, and whether there is one."""
        lines = []
        while True:
            line = self.next(GREATEST_INPUT + 1)
            text = line[len(MARK) :] if not lines and line.startswith(MARK) else line
            is_frames = words_of(text.rstrip(b"\n"))[:1] == [b"frames"]
            if is_frames or not line:
                return b"".join(lines), is_frames
            lines.append(line)


class Frames:
    """A mesh whose control points are moved: the rows of its points at a depth, and the control points as they are now,
    in whole numbers over the common denominator, with those that were moved since the last `go`."""

    def __init__(self, obj: Mesh, depth: int):
        _, self.rows = table(accepted(obj, depth), obj, depth)
        self.depth, self.common, self.controls, self.moved = depth, obj.common, list(obj.points), set()
        self.greatest = max([1] + [row.denominator for row in self.rows])

    def number(self, word: bytes) -> int:
        """A coordinate as a whole number over the common denominator."""
        value = read_numeral(word)
        if self.common % value.denominator:
            raise Fault("move finer than the scale")
        if abs(value) * self.common >= 10**MOST_DIGITS:
            raise Fault("number out of range")
        return int(value * self.common)

    def move(self, words: list[bytes]) -> None:
        if len(words) < 4:
            raise Fault("line too short")
        if not DIGITS.fullmatch(words[0]):
            raise Fault("bad numeral")
        if int(words[0]) >= len(self.controls):
            raise Fault("move index out of range")
        point = tuple(map(self.number, words[1:4]))
        if self.greatest * max(map(abs, point)) > GREATEST_NUMBER:
            raise overflow(POSITIONS, self.depth, "value")
        self.controls[int(words[0])] = point
        self.moved.add(int(words[0]))

    def point_line(self, number: int) -> str:
        axes = [axis / self.common for axis in self.rows[number].value(self.controls)]
        return f"p {number} {' '.join(map(str, axes))}\n"

    def changed_text(self) -> str:
        """The points that depend on a control point that was moved since the last `go`."""
        changed = [number for number, row in enumerate(self.rows) if not self.moved.isdisjoint(row.controls)]
        self.moved = set()
        return f"frame {len(changed)}\n" + "".join(map(self.point_line, changed))

    def answer(self, line: bytes) -> str:
        """The text that a line adds, or its Fault, or a Refusal."""
        if len(line) > GREATEST_LINE:
            raise Fault("line too long")
        keyword, *words = words_of(line) or [b""]
        if keyword == b"move":
            self.move(words)
        elif keyword == b"go":
            return self.changed_text()
        elif keyword:
            raise Fault("unknown keyword")
        return ""


def frame_texts(source: BinaryIO, depth: int, scale: int) -> Iterator[str]:
    """The texts that the lines of an input add, each before the next line is read, and then the Refusal, if any."""
    lines = Lines(source)
    mesh, has_frames = lines.of_mesh()
    frames = Frames(mesh_of(mesh, scale), depth)
    while has_frames:
        line = lines.next(GREATEST_LINE + 1)
        if not line:
            break
        try:
            text = frames.answer(line.rstrip(b"\n"))
        except Fault as fault:
            refuse_line(lines.number, fault.cause)
        yield text
