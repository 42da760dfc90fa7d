"""The tags of a level."""

from __future__ import annotations

from .obj_edit import with_lines, with_points
from .obj_file import ObjFile
from .program import answer_of


def tag_lines(file: ObjFile, depth: int) -> list[str]:
    """Returns the `t` lines of a level. They do not depend on coordinates and texture, which are left out."""
    text = with_points(file, [("0", "0", "0")] * len(file.points))
    faces, first = [], 0
    for size in file.face_sizes:
        faces.append("f " + " ".join(str(point + 1) for point in file.corners[first : first + size]))
        first += size
    text = with_lines(text, file.face_lines, faces)
    answer = answer_of(["refine", f"depth={depth}", "tags=yes"], text)
    return [line for line in answer.splitlines() if line.startswith("t ")]
