"""A plain count of the faults of a mesh, which shares nothing with the package, and random meshes with many faults."""

from __future__ import annotations

from collections.abc import Iterable, Iterator, Mapping, Sequence
from random import Random

Face = tuple[int, ...]

CUBE = [(0, 1, 3, 2), (2, 3, 5, 4), (4, 5, 7, 6), (6, 7, 1, 0), (1, 7, 5, 3), (6, 0, 2, 4)]


def sides_of(face: Face) -> list[tuple[int, int]]:
    """Returns the sides of a face, each from one point to the next."""
    return [(face[place - 1], face[place]) for place in range(len(face))]


def faulty_faces(faces: Sequence[Face]) -> tuple[list[int], list[int]]:
    """Returns the faces that have fewer than three corners, and the others that have a point twice."""
    small = [number for number, face in enumerate(faces) if len(face) < 3]
    twice = [number for number, face in enumerate(faces) if len(face) >= 3 and len(set(face)) < len(face)]
    return small, twice


def faces_at_edges(faces: Mapping[int, Face]) -> dict[frozenset[int], list[tuple[int, tuple[int, int]]]]:
    """Returns for each edge, by its ends, the faces that have it and the direction of each."""
    found: dict[frozenset[int], list[tuple[int, tuple[int, int]]]] = {}
    for number, face in faces.items():
        for side in sides_of(face):
            found.setdefault(frozenset(side), []).append((number, side))
    return found


def faulty_edges(faces: Mapping[int, Face]) -> tuple[dict[frozenset[int], list[int]], dict[frozenset[int], list[int]]]:
    """Returns the edges of three or more faces, and those that two faces have in one direction, each with its faces."""
    many, flipped = {}, {}
    for edge, uses in faces_at_edges(faces).items():
        numbers = [number for number, _ in uses]
        if len(uses) > 2:
            many[edge] = numbers
        elif len(uses) == 2 and uses[0][1] == uses[1][1]:
            flipped[edge] = numbers
    return many, flipped


def fans_at(point: int, faces: Sequence[Face]) -> list[set[int]]:
    """Returns the faces at a point in groups, each of which hangs together across edges at the point."""
    rest = {number for number, face in enumerate(faces) if point in face}
    groups = []
    while rest:
        group, new = set(), {min(rest)}
        while new:
            group |= new
            reached = {end for number in new for side in sides_of(faces[number]) if point in side for end in side}
            ends = reached - {point}
            new = {
                number
                for number in rest - group
                if any(point in side and ends & set(side) for side in sides_of(faces[number]))
            }
        groups.append(group)
        rest -= group
    return groups


def is_manifold(faces: Sequence[Face]) -> bool:
    """Tells whether a mesh has no fault at all."""
    if any(faulty_faces(faces)) or any(faulty_edges(dict(enumerate(faces)))):
        return False
    return all(len(fans_at(point, faces)) == 1 for point in {point for face in faces for point in face})


def random_faces(random: Random) -> list[Face]:
    """Returns faces over few points that meet in many ways, sides of a cube, or a part of a grid with changed faces."""
    kind = random.random()
    if kind < 0.2:
        return [side[:: random.choice((1, 1, -1))] for side in random.choices(CUBE, k=random.randint(1, 12))]
    if kind < 0.6:
        points = range(random.randint(3, 9))
        sizes = random.choices((2, 3, 3, 4, 4, 5), k=random.randint(1, 12))
        return [tuple(random.choices(points, k=size)) for size in sizes]
    faces = [face for face in grid_faces(random.randint(1, 4), random.randint(1, 4)) if random.random() < 0.8]
    for _ in range(random.randint(0, 3)):
        change = random.randrange(3)
        if change == 0 and faces:
            place = random.randrange(len(faces))
            faces[place] = faces[place][::-1]
        elif change == 1 and faces:
            faces.append(random.choice(faces))
        else:
            faces.append(tuple(random.sample(range(30), 3)))
    random.shuffle(faces)
    return faces


def grid_faces(rows: int, columns: int) -> Iterator[Face]:
    """Gives the quads of a grid, all of which go round in one direction."""
    for row in range(rows):
        for column in range(columns):
            corner = row * (columns + 1) + column
            yield corner, corner + 1, corner + columns + 2, corner + columns + 1


def obj_text(points: Iterable[Sequence[object]], faces: Iterable[Face]) -> str:
    """Returns OBJ text of points and faces. The line of face 0 follows that of the last point."""
    lines = [f"v {x} {y} {z}" for x, y, z in points]
    lines += ["f " + " ".join(str(point + 1) for point in face) for face in faces]
    return "".join(f"{line}\n" for line in lines)
