"""Takes the stand-in values of faces without texture out of the text of sparse levels."""

from __future__ import annotations

from bisect import bisect
from collections.abc import Iterator, Sequence
from itertools import accumulate

from .obj_file import ObjFile
from .texture import textured_faces

LEVEL, VALUE, FACE = "level", "vt", "f"


def without_stand_ins(lines: Sequence[str], file: ObjFile) -> Iterator[str]:
    """Gives the lines of sparse levels with the values alone that faces with texture name."""
    textured = textured_faces(file)
    starts = [number for number, line in enumerate(lines) if line.startswith(LEVEL)]
    for depth, (start, end) in enumerate(zip(starts, [*starts[1:], len(lines)])):
        sizes = [1 if depth == 0 else size * 4 ** (depth - 1) for size in file.face_sizes]
        yield from _level_without(lines[start:end], textured, list(accumulate(sizes)))


def _level_without(lines: Sequence[str], textured: Sequence[bool], ends: Sequence[int]) -> Iterator[str]:
    """Gives the lines of one level. The children of a face of the file have numbers up to its end, and without it."""
    faces = [_face_without(line, textured, ends) for line in lines if line.startswith(FACE)]
    used = {corner.partition("/")[2] for words in faces for corner in words[3:]} - {""}
    numbers = {value: str(number) for number, value in enumerate(sorted(used, key=int), 1)}
    value = 0
    for line in lines:
        words = line.split()
        if words[0] == LEVEL:
            yield " ".join([*words[:-1], str(len(numbers))]) + "\n"
        elif words[0] == VALUE:
            value += 1
            if str(value) in numbers:
                yield line
        elif words[0] != FACE:
            yield line
    for words in faces:
        corners = (corner.partition("/") for corner in words[3:])
        renumbered = [point + slash + numbers.get(value, "") for point, slash, value in corners]
        yield " ".join([*words[:3], *renumbered]) + "\n"


def _face_without(line: str, textured: Sequence[bool], ends: Sequence[int]) -> list[str]:
    """Returns the words of a face, whose corners have values where the face of the file has texture."""
    words = line.split()
    if textured[bisect(ends, int(words[2]))]:
        return words
    return words[:3] + [corner.partition("/")[0] for corner in words[3:]]
