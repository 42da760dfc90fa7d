"""Compares the texture of sparse levels with that of whole levels, by two answers of one program.

A face of `far sparse uv=MODE` has the number of a face of `far refine uv=MODE tags=yes` at the depth of its level. Where
it has texture corners, the two have the same two words at each of them. Each face of level 0 has texture corners, and so
has each later face whose parent was selected. `tests/random/compare_random.py` asks that of random meshes with texture.
"""

from __future__ import annotations

from itertools import cycle
from pathlib import Path
from typing import Iterable, NamedTuple

from reference.sparse_points import Compared, all_agree, compare_rules, text_of

DEPTH = 3
MODES = ["smooth", "corners", "boundaries", "linear"]
# The kinds of faces that have texture corners: the parents of the others were not selected, or they are holes.
INNER = (b"s", b"l")


class Texture(NamedTuple):
    """The texture of a level: of each texture point its two words; of each face that has texture corners, by its number in
    the whole level, its texture points from 0; and the numbers of the faces that lack texture corners and should have
    them."""

    values: list[list[bytes]]
    faces: dict[int, list[int]]
    lacking: list[int]


def texture_corners(words: Iterable[bytes]) -> list[int]:
    """The texture points of a face, by its corners in words; none where these have no texture."""
    return [int(word.partition(b"/")[2]) - 1 for word in words if b"/" in word]


def add_face(texture: Texture, is_first: bool, kind: bytes, number: bytes, *corners: bytes) -> None:
    """Adds a face of a sparse level, which may be the first."""
    named = texture_corners(corners)
    if named:
        texture.faces[int(number)] = named
    elif is_first or kind in INNER:
        texture.lacking.append(int(number))


def sparse_textures(text: bytes) -> list[Texture]:
    """The texture of each level of a text of `sparse`."""
    levels = []
    for line in text.splitlines():
        keyword, *words = line.split()
        if keyword == b"level":
            levels.append(Texture([], {}, []))
        elif keyword == b"vt":
            levels[-1].values.append(words)
        elif keyword == b"f":
            add_face(levels[-1], len(levels) == 1, *words)
    return levels


def whole_texture(text: bytes) -> Texture:
    """The texture of a text of `refine tags=yes`."""
    lines = [line.split() for line in text.splitlines()]
    faces = [texture_corners(words[1:]) for words in lines if words[0] == b"f"]
    return Texture([words[1:] for words in lines if words[0] == b"vt"], dict(enumerate(faces)), [])


def corner_words(texture: Texture, face: int) -> list[list[bytes]]:
    return [texture.values[corner] for corner in texture.faces.get(face, [])]


def fault_of(number: int, sparse: Texture, whole: Texture) -> str:
    """What differs between the texture of a sparse level and that of the whole one, if anything does."""
    if sparse.lacking:
        return f"face {sparse.lacking[0]} of level {number} has no texture corners"
    differing = (face for face in sparse.faces if corner_words(sparse, face) != corner_words(whole, face))
    face = next(differing, None)
    return "" if face is None else f"the texture corners of face {face} of level {number} differ"


def compare_levels(words: str, levels: list[Texture], wholes: list[Texture | None]) -> Compared:
    """Compares the texture of sparse levels with that of the whole levels that are there."""
    pairs = [(number, *pair) for number, pair in enumerate(zip(levels, wholes)) if pair[1]]
    fault = next(filter(None, (fault_of(*pair) for pair in pairs)), "")
    if fault:
        return Compared(0, 0, f"{words}: {fault}")
    return Compared(len(pairs), sum(len(face) for _, sparse, _ in pairs for face in sparse.faces.values()), "")


def compare(program: Path, data: bytes, mode: str) -> Compared:
    """Compares the texture of the sparse levels of a mesh with that of its whole levels, refined in one way."""
    whole_words = [["refine", f"depth={depth}", f"uv={mode}", "tags=yes"] for depth in range(DEPTH + 1)]
    texts = [text_of(program, words, data) for words in whole_words]
    wholes = [None if text is None else whole_texture(text) for text in texts]
    options = [f"depth={DEPTH}", f"uv={mode}"]
    return compare_rules(
        program, data, options, wholes, lambda words, text, wholes: compare_levels(words, sparse_textures(text), wholes)
    )


def texture_agrees(program: Path, meshes: Iterable[bytes]) -> bool:
    """Whether the texture of all sparse levels of meshes is that of their whole levels. Prints what is not."""
    return all_agree(((data, compare(program, data, mode)) for data, mode in zip(meshes, cycle(MODES))), "texture")
