"""What the page shows of a mesh, as JSON: its levels, and what was refused or left out."""

from __future__ import annotations

from collections.abc import Callable, Iterable
from dataclasses import dataclass, field
from typing import Any, TypeVar

from .. import Mesh
from ..command.levels import HEADINGS
from ..command.numbers import plain
from ..command.obj_file import ObjFile
from ..command.program import answer_of
from ..command.tags import tag_lines
from ..command.texture import NO_TEXTURE, textured_faces, with_stand_ins
from ..errors import Error
from ..refined import Refined
from .packing import Frame, frame_of, packed, packed_indices, packed_pairs

Result = TypeVar("Result")
Scene = dict

# A level of more faces is drawn by the faces of a level before it.
MOST_FACES = 400_000
# The rows of tables with more rows, or with more entries, are left out.
MOST_ROWS = 100_000
MOST_ENTRIES = 600_000


@dataclass(frozen=True)
class Sizes:
    """What the page takes at most: faces of a level, rows of its table, and entries of these rows."""

    faces: int = MOST_FACES
    rows: int = MOST_ROWS
    entries: int = MOST_ENTRIES


@dataclass(frozen=True)
class Request:
    """What is asked of the page: the name of the mesh, the depth, the mode of texture or none, and the axis up."""

    name: str
    depth: int
    mode: str
    up: str = "y"
    sizes: Sizes = Sizes()


@dataclass
class Maker:
    """Makes the scene of a mesh, and notes what is refused and what is left out."""

    file: ObjFile
    mesh: Mesh
    request: Request
    levels: list[Refined] = field(default_factory=list)
    counts: list[list[int]] = field(default_factory=list)
    names: list[str] = field(default_factory=list)
    notes: list[dict[str, str]] = field(default_factory=list)

    # ---- What is refused ----

    def note(self, what: str, line: str, advice: str) -> None:
        """Notes what the page does not show, why, and what helps."""
        self.notes.append({"what": what, "line": line, "advice": advice})

    def try_for(self, what: str, work: Callable[[], Result]) -> Result | None:
        """Returns what the work returns, or None where the library refuses it, and notes the refusal."""
        try:
            return work()
        except Error as error:
            self.note(what, error.line, error.advice)
            return None

    # ---- Levels ----

    def refine(self) -> None:
        """Refines to the depth, or as far as the library goes. Raises drillolive.Error where it refuses level 0."""
        mode = "smooth" if self.request.mode == NO_TEXTURE else self.request.mode
        self.levels.append(self.mesh.refine(0, mode))
        for depth in range(1, self.request.depth + 1):
            level = self.try_for(f"Level {depth}", lambda: self.mesh.refine(depth, mode))
            if level is None:
                break
            self.levels.append(level)
        self.count()

    def count(self) -> None:
        """Counts the levels by the program."""
        text = answer_of(["levels", f"depth={len(self.levels) - 1}"], self.file.text)
        rows = [line.split() for line in text.splitlines()]
        self.names = [HEADINGS.get(name, name) for name in rows[0][::2]]
        self.counts = [[int(count) for count in row[1::2]] for row in rows]

    def counted(self, depth: int, name: str) -> int:
        """Returns a count of a level."""
        return self.counts[depth][self.names.index(name)]

    def shape_of(self, depth: int) -> int:
        """Returns the level whose faces are drawn for a level: itself, or the last before it that is small enough."""
        levels = range(depth, 0, -1)
        return next((level for level in levels if self.counted(level, "faces") <= self.request.sizes.faces), 0)

    def frame(self) -> Frame:
        """Returns where the page puts points."""
        return frame_of(self.levels[0].points, plain(self.levels[0].corners))

    def level_scene(self, depth: int, frame: Frame) -> Scene:
        """Returns what the page has of a level. Points of a level keep their numbers in the next."""
        shape = self.shape_of(depth)
        if shape < depth:
            self.note_thinned(depth, shape)
        points = self.levels[depth].points[: self.counted(shape, "points")]
        scene: Scene = {"shape": shape, "points": frame.packed(points), "texture": self.texture_scene(depth, shape)}
        scene["rows"] = self.rows_text(depth) if shape == depth else None
        return {**scene, **(self.faces_scene(depth) if shape == depth else {})}

    def note_thinned(self, depth: int, shape: int) -> None:
        """Notes that a level is drawn by the faces of another."""
        faces, drawn = self.counted(depth, "faces"), self.counted(shape, "faces")
        line = (
            f"It has {faces:,} faces, and the page draws {drawn:,}: those of level {shape}, "
            f"with each point where level {depth} has it."
        )
        advice = f"Its tags, rows and sparse faces are left out. `drillolive refine -d {depth}` writes all points."
        self.note(f"Level {depth} is thinned", line, advice)

    def faces_scene(self, depth: int) -> Scene:
        """Returns the faces of a level with their holes and tags."""
        level = self.levels[depth]
        sizes = plain(level.face_sizes)
        faces = packed_indices(level.corners, len(level.points))
        holes = [face for face, is_hole in enumerate(plain(level.holes)) if is_hole]
        tags = tags_scene(tag_lines(self.file, depth)) if self.file.tags else tags_scene([])
        return {
            "corners": faces,
            "sizes": None if set(sizes) <= {4} else packed(sizes, "u32"),
            "holes": packed(holes, "u32"),
            **tags,
        }

    def rows_text(self, depth: int) -> str | None:
        """Returns the exact rows of the table of a level, or None where they are left out."""
        points, sizes = self.counted(depth, "points"), self.request.sizes
        what, advice = f"Rows of level {depth}", f"`drillolive table -d {depth}` writes all rows."
        if points > sizes.rows:
            self.note(what, f"They are left out: {points:,} points are more than {sizes.rows:,}.", advice)
            return None
        table = self.try_for(what, lambda: self.mesh.table(depth))
        if table is None:
            return None
        entries = int(table.starts[-1])
        if entries > sizes.entries:
            self.note(what, f"They are left out: {entries:,} entries are more than {sizes.entries:,}.", advice)
            return None
        return table.text().partition("\n")[2]

    def controls_text(self) -> str | None:
        """Returns the exact points of the mesh, a line each, or None where no row needs them."""
        if len(self.levels[0].points) > self.request.sizes.rows:
            return None
        return "".join(" ".join(map(str, point)) + "\n" for point in self.levels[0].exact())

    # ---- Limit points, texture and sparse levels ----

    def limit_scene(self, frame: Frame) -> Scene | None:
        """Returns the limit points of the last level that is drawn whole. Each level before it has the first ones."""
        depth = max(1, self.shape_of(len(self.levels) - 1))
        level = self.try_for(f"Limit points of level {depth}", lambda: self.mesh.limit(depth))
        shown = self.counted(self.shape_of(len(self.levels) - 1), "points")
        return None if level is None else frame.packed(level.points[:shown])

    def texture_scene(self, depth: int, shape: int) -> Scene | None:
        """Returns the texture of a level: values, and those of corners where the level is drawn whole."""
        if self.request.mode == NO_TEXTURE or not any(textured_faces(self.file)):
            return None
        uvs = self.try_for(f"Texture of level {depth}", lambda: self.levels[depth].uvs)
        drawn = uvs if shape == depth else self.try_for(f"Texture of level {shape}", lambda: self.levels[shape].uvs)
        if uvs is None or drawn is None:
            return None
        scene: Scene = {"values": packed_pairs(uvs.values[: len(drawn.values)])}
        if shape == depth:
            scene["corners"] = packed_indices(uvs.corners, len(uvs.values))
            scene["textured"] = self.textured_scene(depth)
        return scene

    def textured_scene(self, depth: int) -> Scene | None:
        """Returns for each face of a level whether it has texture, or None where all have."""
        textured = textured_faces(self.file)
        if all(textured):
            return None
        counts = [1 if depth == 0 else size * 4 ** (depth - 1) for size in self.file.face_sizes]
        return packed([int(flag) for flag, count in zip(textured, counts) for _ in range(count)], "u8")

    def sparse_scene(self) -> list[Scene] | None:
        """Returns for each level that is drawn whole the numbers of its sparse faces and their kinds, or None."""
        levels = self.try_for("Sparse faces", lambda: self.mesh.sparse(len(self.levels) - 1))
        if levels is None:
            return None
        whole = levels[: self.shape_of(len(self.levels) - 1) + 1]
        return [{"numbers": packed(level.numbers, "u32"), "kinds": packed(level.kinds, "u8")} for level in whole]


def tags_scene(lines: Iterable[str]) -> Scene:
    """Returns the creases and the sharp points of `t` lines: the numbers of points, and the place of each sharpness."""
    ends: list[int] = []
    points: list[int] = []
    kinds: dict[str, list[int]] = {"crease": [], "corner": []}
    places: dict[str, int] = {}
    for line in lines:
        _, name, _, *words = line.split()
        if name in kinds:
            (ends if name == "crease" else points).extend(map(int, words[:-1]))
            kinds[name].append(places.setdefault(words[-1], len(places)))
    return {
        "sharpness": list(places),
        "creases": packed(ends, "u32"),
        "crease_sharpness": packed(kinds["crease"], "u32"),
        "sharp_points": packed(points, "u32"),
        "point_sharpness": packed(kinds["corner"], "u32"),
    }


def scene_of(file: ObjFile, request: Request) -> Scene:
    """Returns what the page shows of the mesh of a file.

    Raises drillolive.Error where the mesh itself is refused. What else is refused stands among the notes.
    """
    held = file if request.mode == NO_TEXTURE else with_stand_ins(file)
    maker = Maker(file, Mesh.from_obj(held.text), request)
    maker.refine()
    frame = maker.frame()
    return {
        "name": request.name,
        "up": request.up,
        "asked": request.depth,
        "mode": request.mode,
        "middle": list(frame.middle),
        "radius": frame.radius,
        "names": maker.names,
        "counts": maker.counts,
        "levels": [maker.level_scene(depth, frame) for depth in range(len(maker.levels))],
        "controls": maker.controls_text(),
        "limit": maker.limit_scene(frame),
        "sparse": maker.sparse_scene(),
        "notes": maker.notes,
    }
