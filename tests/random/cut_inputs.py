"""Inputs that end early: a mesh with texture and tags, a session of moves, and two inputs with a stored table, each cut after each
of its bytes. They are the same for every seed. `tests/random/compare_random.py` tries the program on them."""

from __future__ import annotations

from typing import Iterator

import paths  # noqa: F401
from reference.run import mesh_of
from reference.table import table_text

POINTS = b"v 0 0 0\nv 4 0 0\nv 4 4 0\nv 0 4 0\n"
SQUARE = POINTS + b"f 1 2 3 4\n"
# One texture number is enough. A face may have too few corners, and the last numeral of the crease is valid without its fraction.
TAGGED = POINTS + b"vt 0 0\nf 1/1 2/1 3/1 4/1\nt crease 2/1/0 0 1 3/2\nt corner 1/1/0 2 2\n"
MOVES = b"frames\nmove 2 8 8 0\ngo\ngo # again\nmove 0 1 1 0\nmove 0 0 0 1\ngo\nmove 1 0.5 0 0\n"


def cut_inputs() -> Iterator[tuple[list[str], bytes]]:
    """Words, and an input that is cut after each of its bytes."""
    table = table_text(mesh_of(SQUARE), 1).encode()
    for words, text in (
        (["refine", "depth=1", "tags=yes"], TAGGED),
        (["frames", "depth=1"], SQUARE + MOVES),
        (["verify", "depth=1"], SQUARE + table),
        (["apply"], table + SQUARE),
    ):
        yield from ((words, text[:place]) for place in range(len(text) + 1))
