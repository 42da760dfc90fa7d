"""Compares the points of sparse levels with those of whole levels, by two answers of one program.

A face of `far sparse` has the number of a face of `far refine tags=yes` at the depth of its level. Corner by corner the
two have the same three words. `tests/random/compare_random.py` asks that of random meshes.
"""

from __future__ import annotations

from pathlib import Path
from typing import Callable, Iterable, NamedTuple

from reference.outcomes import answer_of

DEPTH = 4
RULES = ["feature", "all"]


class Level(NamedTuple):
    """A level: of each point its three words, and of each face, by its number in the whole level, its points from 0."""

    points: list[list[bytes]]
    faces: dict[int, list[int]]


class Compared(NamedTuple):
    """How many levels of a mesh were compared, how many corners these have, and what differs, if anything does."""

    levels: int
    corners: int
    fault: str


def sparse_levels(text: bytes) -> list[Level]:
    """The levels of a text of `sparse`."""
    levels = []
    for line in text.splitlines():
        keyword, *words = line.split()
        if keyword == b"level":
            levels.append(Level([], {}))
        elif keyword == b"v":
            levels[-1].points.append(words)
        else:
            levels[-1].faces[int(words[1])] = [int(word) - 1 for word in words[2:]]
    return levels


def whole_level(text: bytes) -> Level:
    """The level of a text of `refine tags=yes`; its texture and its tags are passed over."""
    lines = [line.split() for line in text.splitlines()]
    faces = [[int(word.partition(b"/")[0]) - 1 for word in words[1:]] for words in lines if words[0] == b"f"]
    return Level([words[1:] for words in lines if words[0] == b"v"], dict(enumerate(faces)))


def corner_words(level: Level, face: int) -> list[list[bytes]]:
    return [level.points[corner] for corner in level.faces.get(face, [])]


def text_of(program: Path, words: list[str], data: bytes) -> bytes | None:
    """What the program writes; None where it refuses."""
    status, text = answer_of(program, words, data)
    return None if status else text


def compare_levels(words: str, levels: list[Level], wholes: list[Level | None]) -> Compared:
    """Compares sparse levels with those of the whole levels that are there."""
    pairs = [(number, *pair) for number, pair in enumerate(zip(levels, wholes)) if pair[1]]
    for number, sparse, whole in pairs:
        for face in sparse.faces:
            if corner_words(sparse, face) != corner_words(whole, face):
                return Compared(0, 0, f"{words}: the corners of face {face} of level {number} differ")
    return Compared(len(pairs), sum(len(face) for _, sparse, _ in pairs for face in sparse.faces.values()), "")


def compare_rules(
    program: Path, data: bytes, options: list[str], wholes: list, compare_text: Callable[[str, bytes, list], Compared]
) -> Compared:
    """Compares the sparse levels of a mesh under each rule, with these options besides, with its whole levels, of which
    those that are refused are not compared. Where the last one is taken, so are all sparse levels."""
    seen = []
    for rule in RULES:
        words = ["sparse", options[0], f"select={rule}", *options[1:]]
        text = text_of(program, words, data)
        if text is not None:
            seen.append(compare_text(" ".join(words), text, wholes))
        elif wholes[-1]:
            seen.append(Compared(0, 0, f"{' '.join(words)} refuses what refine takes"))
    levels, corners, faults = zip(*seen) if seen else ((), (), ())
    return Compared(sum(levels), sum(corners), next(filter(None, faults), ""))


def compare(program: Path, data: bytes) -> Compared:
    """Compares the points of the sparse levels of a mesh with those of its whole levels."""
    texts = [text_of(program, ["refine", f"depth={depth}", "tags=yes"], data) for depth in range(DEPTH + 1)]
    wholes = [None if text is None else whole_level(text) for text in texts]
    return compare_rules(
        program, data, [f"depth={DEPTH}"], wholes, lambda words, text, wholes: compare_levels(words, sparse_levels(text), wholes)
    )


def all_agree(compared: Iterable[tuple[bytes, Compared]], what: str) -> bool:
    """Whether all meshes agree, each of which comes with what was compared of it. Prints the first that does not, or how
    many agree."""
    count = levels = corners = 0
    for data, seen in compared:
        if seen.fault:
            print(f"{data!r}\n  {seen.fault}")
            return False
        count, levels, corners = count + 1, levels + seen.levels, corners + seen.corners
    print(f"{count} meshes have the {what} of whole levels in sparse levels too: at {corners} corners of {levels} levels")
    return True


def points_agree(program: Path, meshes: Iterable[bytes]) -> bool:
    """Whether the points of all sparse levels of meshes are those of their whole levels. Prints what is not."""
    return all_agree(((data, compare(program, data)) for data in meshes), "points")
