"""Runs the program `far` for a command on the text of a file."""

from __future__ import annotations

from collections.abc import Sequence

from .. import Mesh, run
from ..errors import error_of
from .failure import CommandError


def answer_of(words: Sequence[str], text: bytes) -> str:
    """Returns the text of the program's answer.

    Raises drillolive.Error where a line or the mesh is refused, and CommandError where something else is.
    """
    answer = run(words, text)
    if answer.status == 0:
        return answer.text
    for fault in Mesh.from_obj(text).check():
        raise error_of(fault)
    cause = answer.error.strip().partition(": ")[2]
    raise CommandError(cause, "Refine fewer times, or simplify the mesh.")
