"""What is asked of a level."""

from __future__ import annotations

from collections.abc import Callable
from dataclasses import dataclass

from .. import Mesh
from ..refined import Refined
from .numbers import NumberForm
from .texture import NO_TEXTURE

# Refines a mesh to a depth, with a mode of texture.
Refine = Callable[[Mesh, int, str], Refined]


@dataclass
class Request:
    """What is asked of a level: how it is made, and what is written of it."""

    depth: int
    refine: Refine
    form: NumberForm
    mode: str  # of texture, or none
    with_tags: bool = False
    with_normals: bool = False

    def refined(self, text: bytes) -> Refined:
        """Returns the level of a text. Raises drillolive.Error where it cannot be refined so."""
        mode = "smooth" if self.mode == NO_TEXTURE else self.mode
        return self.refine(Mesh.from_obj(text), self.depth, mode)
