"""The colours of the points of a level."""

from __future__ import annotations

from typing import Any

from ..errors import ExactOverflowError
from .failure import CommandError
from .numbers import as_rows, joined
from .obj_edit import with_points
from .obj_file import ObjFile
from .request import Request

BLACK, WHITE = ("0", "0", "0"), ("1", "1", "1")


def colours_of(file: ObjFile, request: Request) -> list[Any]:
    """Returns the colour of each point of a level, refined as points are.

    It is None where a point of the mesh on which the point depends has no colour. Without any colour the list is empty.
    """
    if not any(file.colours):
        return []
    try:
        level = request.refined(with_points(file, [colour or WHITE for colour in file.colours]))
        colours = as_rows(level.exact() if request.form.exact else level.points)
    except ExactOverflowError as error:
        cause = f"the colours of points: {error.fault.cause}"
        raise CommandError(cause, "Round the colours to fewer digits.") from error
    if all(file.colours):
        return colours
    marks = [BLACK if colour else WHITE for colour in file.colours]
    has_none = as_rows(request.refined(with_points(file, marks)).points)
    return [None if mark[0] else colour for colour, mark in zip(colours, has_none)]


def with_colours(rows: Any, colours: list[Any]) -> Any:
    """Returns the rows of points with their colours behind them."""
    return joined(rows, [colour or () for colour in colours]) if colours else rows
