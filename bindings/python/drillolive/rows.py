"""What rows are asked for: of a level, of limit points, of a patch, or of texture; as points and as tables."""

from __future__ import annotations

from dataclasses import dataclass
from fractions import Fraction
from typing import Any

from ._calls import Handle, new_handle
from ._interface import Form
from .arrays import CODES, Memory
from .exact import fractions_at

# The calls that make points and tables of a level end with the name of a form, and all others take its number.
LEVEL, LIMIT, PATCH, TEXTURE = "level", "limit", "patch", "texture"


@dataclass(frozen=True)
class Rows:
    """The rows that a mesh is asked for.

    `numbers` are those that the call takes behind the mesh: the depth, and others.
    """

    mesh: Handle
    kind: str
    numbers: tuple[int, ...]

    def points(self, form: Form) -> Handle:
        """Returns a handle of the points of these rows."""
        if self.kind == LEVEL:
            return new_handle("points", f"refine_{form.name}", self.mesh, *self.numbers)
        return new_handle("points", f"points_new_{self.kind}", self.mesh, *self.numbers, form.value)

    def table(self, form: Form) -> Handle:
        """Returns a handle of the table of these rows."""
        if self.kind == LEVEL:
            return new_handle("table", f"table_new_{form.name}", self.mesh, *self.numbers)
        return new_handle("table", f"table_new_{self.kind}", self.mesh, *self.numbers, form.value)

    def numbers_of_points(self, form: Form) -> Any:
        """Returns the nearest doubles, or floats, of the points: an array (n, columns), or a list of tuples."""
        return points_array(self.points(form), form)

    def fractions(self) -> list[tuple[Fraction, ...]]:
        """Returns the exact points."""
        points = self.points(Form.exact)
        numerators, denominators = points.get("numerators"), points.get("denominators")
        return fractions_at(numerators, denominators, points.get("count"), points.get("components"))


def points_array(points: Handle, form: Form) -> Any:
    """Returns an array (n, columns) over a handle of points, or a list of tuples."""
    shape = (points.get("count"), points.get("components"))
    return Memory(points.get(form.name), CODES[form], shape, points).array()
