"""Compares a mesh that is refined from a text of the program with one that is refined at once, by three answers of one program.

A text of `far refine depth=K tags=yes` is read and refined further as the mesh that it came from. Its text after J steps is
that of the mesh after K + J steps: the same points, faces and tags. Texture values may be in another order there, and
are passed over. A text is refused when it is read exactly where a number in it is too long, or a sharpness too fine.
`tests/random/compare_random.py` asks that of random meshes.
"""

from __future__ import annotations

import re
from collections import Counter
from fractions import Fraction
from itertools import zip_longest
from math import lcm
from pathlib import Path
from typing import Iterable, NamedTuple

from reference.outcomes import Answer, answer_of

# How many steps are taken to the text and how many from there, and the ways of texture, by turns.
STEPS = [(1, 1), (1, 2), (0, 2)]
UVS = ["uv=smooth", "uv=corners", "uv=boundaries", "uv=linear"]
TAGS = ["tags=yes", "tags=no"]
# Numbers that are read are below this, and their common denominator is at most this; a sharpness has at most that.
BOUND = 10**37
GREATEST_SHARPNESS_DENOMINATOR = 10**6
REFUSED_LINE = 5
# With these a level is refused of a mesh without fault: it has too many entries, or its numbers overflow.
REFUSED_LEVEL = (7, 8)
SAME, SAME_TEXTURED, UNREADABLE, REFUSED = "same", "same, with texture", "unreadable", "refused"


class Compared(NamedTuple):
    """What became of a mesh, and what is wrong, if anything is."""

    end: str
    fault: str


def refined(program: Path, depth: int, options: list[str], data: bytes) -> Answer:
    return answer_of(program, ["refine", f"depth={depth}", *options], data)


def are_short(values: list[Fraction]) -> bool:
    """Whether values can be read, as they are written and over their common denominator."""
    common = lcm(1, *(value.denominator for value in values))
    return common <= BOUND and all(value.denominator < BOUND and abs(value * common) < BOUND for value in values)


def is_readable(text: bytes) -> bool:
    """Whether no number of a text is too long to be read, and no sharpness too fine."""
    lines = [line.split() for line in text.decode().splitlines()]
    channels = ([Fraction(word) for words in lines if words[0] == name for word in words[1:]] for name in ("v", "vt"))
    sharpness = [Fraction(words[-1]) for words in lines if words[1] in ("crease", "corner")]
    return all(map(are_short, channels)) and all(
        value.denominator <= GREATEST_SHARPNESS_DENOMINATOR for value in sharpness
    )


def without_texture(text: bytes) -> list[bytes]:
    """The lines of a text, without its texture values and their numbers at corners."""
    lines = [line for line in text.split(b"\n") if not line.startswith(b"vt")]
    return [re.sub(rb"/\d+", b"", line) if line.startswith(b"f") else line for line in lines]


def first_difference(after: bytes, at_once: bytes) -> str:
    """The first line in which two texts differ but for their texture; nothing if none does."""
    pairs = zip_longest(without_texture(after), without_texture(at_once))
    found = next(((number, pair) for number, pair in enumerate(pairs, start=1) if pair[0] != pair[1]), None)
    return "" if found is None else f"line {found[0]} is {found[1][0]}, and {found[1][1]} at once"


def compare_answers(text: bytes, after: Answer, at_once: Answer) -> Compared:
    """Compares the answer to a text with the answer to its mesh."""
    if (after.status == REFUSED_LINE) == is_readable(text):
        return Compared("", f"the text between ends with status {after.status}")
    if after.status == REFUSED_LINE:
        return Compared(UNREADABLE, "")
    wrong = {after.status, at_once.status} - {0, *REFUSED_LEVEL}
    if wrong:
        return Compared("", f"a level ends with status {min(wrong)}")
    if after.status or at_once.status:
        return Compared(REFUSED, "")
    return Compared(SAME_TEXTURED if b"\nvt " in text else SAME, first_difference(after.text, at_once.text))


def compare(program: Path, data: bytes, steps: tuple[int, int], uv: str) -> Compared:
    """Compares a mesh that is refined by way of a text with the same that is refined at once, with tags and without."""
    before, further = steps
    first = refined(program, before, [TAGS[0], uv], data)
    if first.status:
        return Compared(REFUSED, "" if first.status in REFUSED_LEVEL else f"a level ends with status {first.status}")
    seen = []
    for tags in TAGS:
        after = refined(program, further, [tags, uv], first.text)
        at_once = refined(program, before + further, [tags, uv], data)
        seen.append(compare_answers(first.text, after, at_once))
    return next((compared for compared in seen if compared.fault), seen[0])


def continued_texts_agree(program: Path, meshes: Iterable[bytes]) -> bool:
    """Whether all meshes have one text after some steps, at once and by way of a text between; prints which have not."""
    ends = Counter()
    for number, data in enumerate(meshes):
        steps, uv = STEPS[number % len(STEPS)], UVS[number % len(UVS)]
        compared = compare(program, data, steps, uv)
        if compared.fault:
            print(f"{data!r}, {' and '.join(map(str, steps))} steps, {uv}\n  {compared.fault}")
            return False
        ends[compared.end] += 1
    print(
        f"{ends[SAME]} meshes have one text at once and by way of a text, and {ends[SAME_TEXTURED]} with texture all but that;"
        f" of {ends[UNREADABLE]} the text between cannot be read; {ends[REFUSED]} others are refused"
    )
    return True
