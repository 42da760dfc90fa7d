"""Writes the text of a file whose mesh was made a manifold: lines that need no change stay as they are."""

from __future__ import annotations

import re
from collections.abc import Sequence
from itertools import islice

from .faults import Edge, edge_of, faces_of
from .obj_file import ObjFile, decode, encode
from .split import Split

WORD = re.compile(r"[^ \t\r]+")


def text_of_split(file: ObjFile, made: Split) -> bytes:
    """Returns the text of a file with the faces and the points of the manifold that was made of its mesh.

    Lines of faces that are left out are missing. Tags name all points and edges that come from those they named, and
    faces by their new numbers. Where points are added, all points stand before the first face.
    """
    lines: list[str | None] = list(decode(file.text).split("\n"))
    change_faces(lines, file, made)
    change_tags(lines, file, made)
    if made.origins:
        move_points(lines, file, made.origins)
    return encode("\n".join(line for line in lines if line is not None))


def kept_faces(file: ObjFile, made: Split) -> list[int]:
    """Returns the numbers of the faces that are kept."""
    gone = set(made.left_out)
    return [number for number in range(len(file.face_sizes)) if number not in gone]


def change_faces(lines: list[str | None], file: ObjFile, made: Split) -> None:
    """Gives the lines of faces their new points, and takes the lines of other faces away."""
    for number in made.left_out:
        lines[file.face_lines[number] - 1] = None
    if not made.origins:
        return
    for number, points in zip(kept_faces(file, made), faces_of(made.sizes, made.corners)):
        place = file.face_lines[number] - 1
        lines[place] = with_points_of_face(lines[place] or "", points)


def with_points_of_face(line: str, points: Sequence[int]) -> str:
    """Returns the line of a face with these points, counted from 0. Texture, normals, blanks and the comment stay."""
    parts, end = [], 0
    words = islice(WORD.finditer(line), 1, 1 + len(points))
    for word, point in zip(words, points):
        _, slash, rest = word[0].partition("/")
        parts += [line[end : word.start()], f"{point + 1}{slash}{rest}"]
        end = word.end()
    return "".join(parts) + line[end:]


def move_points(lines: list[str | None], file: ObjFile, origins: Sequence[int]) -> None:
    """Adds points behind those of the file. Points that stand behind the first face go before it, with the added ones.

    Faces have no numbers that count back any more, since their lines have all been written anew.
    """
    first_face = file.face_lines[0] - 1
    before = sum(number - 1 < first_face for number in file.point_lines)
    place = file.point_lines[before - 1] if before else first_face
    late = [number - 1 for number in file.point_lines[before:]]
    moved = [lines[number] for number in late] + [lines[file.point_lines[point] - 1] for point in origins]
    for number in late:
        lines[number] = None
    lines[place:place] = moved


# ---- Tags ----


def change_tags(lines: list[str | None], file: ObjFile, made: Split) -> None:
    """Lets the tags name the points, the edges and the faces that come from those that they named."""
    copies = copies_of_points(file, made)
    edges = copies_of_edges(file, made) if copies else {}
    numbers = {face: number for number, face in enumerate(kept_faces(file, made))} if made.left_out else {}
    for number, tag in file.tags:
        words = tag.split()
        if words[1] == "hole" and numbers:
            holes = [numbers[int(word)] for word in words[3:] if int(word) in numbers]
            lines[number - 1] = tag_line("hole", holes, []) if holes else None
        elif words[1] in ("crease", "corner") and copies:
            change = corner_lines if words[1] == "corner" else crease_lines
            changed = change(*numbers_of_tag(words), copies, edges)
            lines[number - 1] = "\n".join(changed) if changed else lines[number - 1]


def copies_of_points(file: ObjFile, made: Split) -> dict[int, list[int]]:
    """Returns for each point that was parted the points that were added at its place."""
    copies: dict[int, list[int]] = {}
    for number, origin in enumerate(made.origins, len(file.points)):
        copies.setdefault(origin, []).append(number)
    return copies


def copies_of_edges(file: ObjFile, made: Split) -> dict[Edge, list[Edge]]:
    """Returns for each edge of the mesh the edges that come from it."""
    sources = [*range(len(file.points)), *made.origins]
    edges: dict[Edge, dict[Edge, None]] = {}
    for face in faces_of(made.sizes, made.corners):
        for one, other in zip(face, face[1:] + face[:1]):
            edges.setdefault(edge_of(sources[one], sources[other]), {})[edge_of(one, other)] = None
    return {source: list(found) for source, found in edges.items()}


def numbers_of_tag(words: Sequence[str]) -> tuple[list[int], list[str]]:
    """Returns the points of a tag, and the sharpness of each part of it: the last one counts for all that follow."""
    count = int(words[2].partition("/")[0])
    points = [int(word) for word in words[3 : 3 + count]]
    sharpness = list(words[3 + count :])
    return points, sharpness + [sharpness[-1]] * (count - len(sharpness))


def tag_line(name: str, numbers: Sequence[int], sharpness: Sequence[str]) -> str:
    """Returns the line of a tag of points or faces."""
    return " ".join(["t", name, f"{len(numbers)}/{len(sharpness)}/0", *map(str, numbers), *sharpness])


def corner_lines(
    points: Sequence[int], sharpness: Sequence[str], copies: dict[int, list[int]], edges: dict[Edge, list[Edge]]
) -> list[str]:
    """Returns the lines of a tag of points for all their copies, or none where no point has any."""
    if not any(point in copies for point in points):
        return []
    return [tag_line("corner", [point, *copies.get(point, [])], [value]) for point, value in zip(points, sharpness)]


def crease_lines(
    points: Sequence[int], sharpness: Sequence[str], copies: dict[int, list[int]], edges: dict[Edge, list[Edge]]
) -> list[str]:
    """Returns the lines of a chain of edges for all edges that come from them, or none where none has another end."""
    if not any(point in copies for point in points):
        return []
    return [
        tag_line("crease", edge, [value])
        for pair, value in zip(zip(points, points[1:]), sharpness)
        for edge in edges.get(edge_of(*pair), [pair])
    ]
