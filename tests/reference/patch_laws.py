"""Compares the patch of a face with limit points and with the patches of its children, by answers of one program.

A corner of a patch is the limit point of that corner of the face. The patch of a child of a face is a quarter of the
patch of the face: at (s, t) it has the point of the parent at the place that `in_parent` says. So the lines `s` of
`far patch` have the same three words there. `tests/random/compare_random.py` asks that of random faces of random meshes.
"""

from __future__ import annotations

import random
from pathlib import Path
from typing import Iterable, Iterator, NamedTuple

from reference.limit_points import limits_at
from reference.outcomes import answer_of
from reference.patch import patched_levels

GREATEST_DEPTH = 2
MOST_FACES = 300
STEPS = [1, 2, 3, 4, 7]
# With these a level or a patch of it is refused where an earlier one is taken: too many entries, or numbers that overflow.
REFUSED_LATER = (7, 8)
# With these limit points are refused where the patch is taken: those, or a point that has none.
REFUSED_LIMITS = (7, 8, 9)


class Drawn(NamedTuple):
    """A face that has a patch: the text of its mesh, its depth, its number there, its corners, the number of its first
    child, and how many steps the patches of its children are to have."""

    data: bytes
    depth: int
    number: int
    corners: tuple[int, ...]
    first_child: int
    steps: int


class Patch(NamedTuple):
    """How the program ends, and the three words of each place."""

    status: int
    points: dict[tuple[int, int], list[bytes]]


class Compared(NamedTuple):
    """How many corners of a face were compared, how many places of its children, and what is wrong, if anything is."""

    corners: int
    places: int
    fault: str


def patch_of(program: Path, depth: int, face: int, steps: int, data: bytes) -> Patch:
    status, text = answer_of(program, ["patch", f"depth={depth}", f"face={face}", f"grid={steps}"], data)
    lines = [line.split() for line in text.splitlines()[1:]]
    return Patch(status, {(int(line[1]), int(line[2])): line[3:] for line in lines})


def in_parent(child: int, steps: int, place: tuple[int, int]) -> tuple[int, int]:
    """The place of a child's place in the patch of its parent, where the child has so many steps and the parent twice as
    many."""
    i, j = place
    return [(i, j), (2 * steps - j, i), (2 * steps - i, 2 * steps - j), (j, 2 * steps - i)][child]


def refused(what: str, status: int, statuses: tuple[int, ...]) -> Compared:
    """Nothing compared, which is wrong where the status is none of these."""
    return Compared(0, 0, "" if status in statuses else f"{what} ends with status {status}")


def compare_corners(program: Path, face: Drawn, patch: Patch) -> Compared:
    """Compares the corners of the patch of a face with the limit points of its points."""
    limits, last = limits_at(program, face.depth, face.data), 2 * face.steps
    if limits.status:
        return refused("limit", limits.status, REFUSED_LIMITS)
    for corner, place in zip(face.corners, [(0, 0), (last, 0), (last, last), (0, last)]):
        if patch.points[place] != limits.points[corner].split()[1:]:
            return Compared(0, 0, f"at {place} is another point than the limit point of point {corner}")
    return Compared(len(face.corners), 0, "")


def compare_child(program: Path, face: Drawn, child: int, patch: Patch) -> Compared:
    """Compares the patch of a child of a face, on a grid of half as many steps, with that of the face."""
    found = patch_of(program, face.depth + 1, face.first_child + child, face.steps, face.data)
    if found.status:
        return refused(f"child {child}", found.status, REFUSED_LATER)
    for place, words in found.points.items():
        if words != patch.points[in_parent(child, face.steps, place)]:
            return Compared(0, 0, f"child {child} has at {place} another point than its parent")
    return Compared(0, len(found.points), "")


def compare(program: Path, face: Drawn) -> Compared:
    """Compares the patch of a face with limit points, which level 0 does not have, and with the patches of its children."""
    patch = patch_of(program, face.depth, face.number, 2 * face.steps, face.data)
    if patch.status:
        return refused("the patch", patch.status, REFUSED_LATER)
    seen = [compare_child(program, face, child, patch) for child in range(4)]
    seen += [compare_corners(program, face, patch)] if face.depth else []
    corners, places, faults = zip(*seen)
    return Compared(sum(corners), sum(places), next(filter(None, faults), ""))


def drawn_faces(random: random.Random, meshes: Iterable[bytes]) -> Iterator[Drawn]:
    """A face of each mesh that has one with a patch."""
    for data in meshes:
        found = patched_levels(data, GREATEST_DEPTH, MOST_FACES)
        if found:
            depth, level, numbers = random.choice(found)
            number, faces = random.choice(numbers), level.mesh.faces
            yield Drawn(data, depth, number, faces[number], sum(map(len, faces[:number])), random.choice(STEPS))


def patches_agree(program: Path, faces: Iterable[Drawn]) -> bool:
    """Whether the patches of faces agree with limit points and with the patches of their children; prints which do not."""
    tried = count = places = corners = 0
    for face in faces:
        compared = compare(program, face)
        if compared.fault:
            print(f"{face}\n  {compared.fault}")
            return False
        tried, count = tried + 1, count + (compared.places > 0)
        places, corners = places + compared.places, corners + compared.corners
    print(
        f"{count} of {tried} patches have {places} points of the patches of their children, and {corners} limit points;"
        " others are refused"
    )
    return True
