"""Random small meshes as OBJ texts: open and closed surfaces of several parts, with random tags, texture and numbers,
and with faces that are dropped, doubled, turned or spoilt. The same seed makes the same texts.
`tests/random/compare_random.py` tries the program on them."""

from __future__ import annotations

from itertools import product
from typing import Callable, Iterable, Sequence

import paths  # noqa: F401
from draws import Draws
from mesh_makers import bipyramid, fan, grid, prism, surface
from random_texture import Textures

SHARPNESSES = ["0", "0/3", "1/2", "1", "3/2", "2.5", "0.000001", "19/2", "10", "1e9", "20000003/1000001"]
# Where edges at a point have all three, their common denominator is too great at level 1, or only at level 2.
TOO_FINE_AT_ONCE = ["1/999999", "1/999998", "999996/999997"]
TOO_FINE_LATER = ["1500006/300001", "1500001/300000", "1499996/299999"]
# Where all three end at a point at once, the weight of its transition is too fine.
TOO_FINE_TO_END = TOO_FINE_AT_ONCE + ["1/1000000", "3/999983"]
# Round a point that has faces of nearly all of these sizes the denominator is too great.
PRIMES = [number for number in range(3, 100) if all(number % least for least in range(2, number))]


class Meshes(Draws):
    """Random meshes. A mesh is the number of its points and its faces."""

    def __init__(self, seed: str | int):
        super().__init__(seed)
        self.textures = Textures(self.random)

    # Surfaces

    def grid(self) -> tuple[int, list[tuple[int, ...]]]:
        closed = [self.happens(0.4), self.happens(0.4)]
        rows, columns = (self.random.randint(3 if is_closed else 1, 5) for is_closed in closed)
        return grid(rows, columns, *closed)

    def fan(self) -> tuple[int, list[tuple[int, ...]]]:
        is_closed = self.happens(0.5)
        sizes = [self.random.choice([3, 3, 3, 4, 4, 5, 6, 10]) for _ in range(self.random.randint(3, 8))]
        return fan(sizes, is_closed)

    def uneven_fan(self) -> tuple[int, list[tuple[int, ...]]]:
        """Faces of many sizes round a point."""
        return fan(self.random.sample(PRIMES, self.random.randint(len(PRIMES) - 2, len(PRIMES))), True)

    def cubes(self) -> tuple[int, list[tuple[int, ...]]]:
        """The outer faces of some unit cubes, which may meet at an edge or only at a point."""
        places = list(product(range(3), range(3), range(2)))
        points, faces = surface(set(self.random.sample(places, self.random.choice([1, 2, 2, 3, 9, 14, 16, 17]))))
        return len(points), faces

    def soup(self) -> tuple[int, list[tuple[int, ...]]]:
        """Faces of random corners, that are mostly faulty."""
        points = self.random.randint(3, 9)
        sizes = [self.random.randint(3, min(points, 5)) for _ in range(self.random.randint(1, 4))]
        return points, [tuple(self.random.sample(range(points), size)) for size in sizes]

    def part(self) -> tuple[int, list[tuple[int, ...]]]:
        kind = self.random.choice(["grid", "grid", "fan", "prism", "bipyramid", "cubes", "soup"])
        if kind in ("prism", "bipyramid"):
            return {"prism": prism, "bipyramid": bipyramid}[kind](self.random.randint(3, 7))
        return getattr(self, kind)()

    def split(self, face: tuple[int, ...]) -> list[tuple[int, ...]]:
        """A face, or two in its place with a new edge between two of its corners."""
        if len(face) < 4 or self.happens(0.75):
            return [face]
        turn = self.random.randrange(len(face))
        face = face[turn:] + face[:turn]
        cut = self.random.randint(2, len(face) - 2)
        return [face[: cut + 1], face[cut:] + face[:1]]

    def parts(self) -> tuple[int, list[tuple[int, ...]]]:
        """Parts that share nothing, of which some faces are split."""
        count, faces = 0, []
        for _ in range(self.random.choice([1, 1, 1, 2, 2, 3])):
            points, part = self.part()
            faces += [tuple(corner + count for corner in piece) for face in part for piece in self.split(face)]
            count += points
        return count, faces

    # Changes

    def drop(self, count: int, faces: list[tuple[int, ...]]) -> None:
        faces.pop(self.random.randrange(len(faces)))

    def double(self, count: int, faces: list[tuple[int, ...]]) -> None:
        faces.append(self.random.choice(faces))

    def turn(self, count: int, faces: list[tuple[int, ...]]) -> None:
        place = self.random.randrange(len(faces))
        faces[place] = faces[place][::-1]

    def shorten(self, count: int, faces: list[tuple[int, ...]]) -> None:
        place = self.random.randrange(len(faces))
        faces[place] = faces[place][: self.random.randint(1, len(faces[place]))]

    def move_corner(self, count: int, faces: list[tuple[int, ...]]) -> None:
        place = self.random.randrange(len(faces))
        corner = self.random.randrange(len(faces[place]))
        faces[place] = faces[place][:corner] + (self.random.randrange(count),) + faces[place][corner + 1 :]

    def join(self, count: int, faces: list[tuple[int, ...]]) -> None:
        """Puts one point in the place of another."""
        old, new = self.random.randrange(count), self.random.randrange(count)
        faces[:] = [tuple(new if corner == old else corner for corner in face) for face in faces]

    def change(self, count: int, faces: list[tuple[int, ...]]) -> None:
        changes = [self.drop, self.double, self.turn, self.shorten, self.move_corner, self.join]
        for _ in range(self.random.choice([0, 0, 0, 0, 1, 1, 2, 4])):
            if faces:
                self.random.choices(changes, [8, 1, 1, 1, 1, 2])[0](count, faces)

    def renamed(self, count: int, faces: list[tuple[int, ...]]) -> list[tuple[int, ...]]:
        """The same faces over points with other numbers, and in another order and from other corners."""
        names = list(range(count))
        self.random.shuffle(names)
        self.random.shuffle(faces)
        turns = [self.random.randrange(len(face)) for face in faces]
        return [tuple(names[corner] for corner in face[turn:] + face[:turn]) for face, turn in zip(faces, turns)]

    def mesh(self) -> tuple[int, list[tuple[int, ...]]]:
        if self.happens(0.03):
            return self.uneven_fan()
        count, faces = self.parts()
        self.change(count, faces)
        if self.happens(0.3):
            count += self.random.randint(1, 3)
        return count, self.renamed(count, faces) if self.happens(0.7) else faces

    # Texts

    def crease(self, count: int, faces: list[tuple[int, ...]]) -> str:
        """A crease along some corners of a face, or between any points."""
        chain = self.random.choice(faces) if faces and self.happens(0.9) else ()
        chain = chain[: self.random.randint(2, 5)]
        if len(chain) < 2:
            chain = [self.random.randrange(count) for _ in range(self.random.randint(2, 3))]
        several = self.happens(0.3)
        sharpness = self.random.choices(SHARPNESSES, k=len(chain) - 1 if several else 1)
        return f"t crease {len(chain)}/{len(sharpness)}/0 {' '.join(map(str, chain))} {' '.join(sharpness)}"

    def spokes(self, count: int, faces: list[tuple[int, ...]]) -> str:
        """A crease that goes to and fro between a point and its neighbours, and so gives several edges there their own
        sharpness; where there is no face, a crease between any points."""
        if not faces:
            return self.crease(count, faces)
        center = self.random.choice(self.random.choice(faces))
        ends = sorted({face[face.index(center) - 1] for face in faces if center in face})
        self.random.shuffle(ends)
        chain = [center] + [point for end in ends[:6] for point in (end, center)]
        values = self.random.choice([SHARPNESSES, SHARPNESSES, TOO_FINE_AT_ONCE, TOO_FINE_LATER, TOO_FINE_TO_END])
        sharpness = self.random.choices(values, k=len(chain) - 1)
        return f"t crease {len(chain)}/{len(sharpness)}/0 {' '.join(map(str, chain))} {' '.join(sharpness)}"

    def corner_tag(self, count: int) -> str:
        """A corner tag for some points, all of one sharpness or each of its own."""
        named = [self.random.randrange(count) for _ in range(self.random.randint(1, 3))]
        sharpness = self.random.choices(SHARPNESSES, k=len(named) if self.happens(0.5) else 1)
        return f"t corner {len(named)}/{len(sharpness)}/0 {' '.join(map(str, named))} {' '.join(sharpness)}"

    def ring(self, faces: list[tuple[int, ...]]) -> str:
        """A crease all round a face that is infinitely sharp, so that it ends nowhere."""
        face = self.random.choice(faces)
        chain = face + face[:1]
        return f"t crease {len(chain)}/1/0 {' '.join(map(str, chain))} 10"

    def lasting_tag(self, count: int, faces: list[tuple[int, ...]]) -> str:
        """A tag that makes nothing semi-sharp, and no dart."""
        kind = self.random.choice(["ring", "ring", "ring", "corner", "mode", "hole"])
        if kind == "ring":
            return self.ring(faces)
        if kind == "corner":
            return f"t corner 1/1/0 {self.random.randrange(count)} 10"
        if kind == "hole":
            return f"t hole 1/0/0 {self.random.randrange(len(faces))}"
        return f"t interpolateboundary 1/0/0 {self.random.randint(0, 2)}"

    def chaikin_tags(self, count: int, faces: list[tuple[int, ...]]) -> list[str]:
        """The method chaikin, and creases that it goes by."""
        return ["t creasemethod 0/0/1 chaikin"] + [self.spokes(count, faces) for _ in range(3)]

    def tag(self, count: int, faces: list[tuple[int, ...]]) -> str:
        kinds = ["crease", "spokes", "method"] * 6 + ["corner", "hole", "mode"] * 4 + ["dropped"]
        kind = self.random.choice(kinds)
        if kind == "crease":
            return self.crease(count, faces)
        if kind == "spokes":
            return self.spokes(count, faces)
        if kind == "corner":
            return self.corner_tag(count)
        if kind == "hole":
            # now and then the number is past the faces
            return f"t hole 1/0/0 {self.random.randrange(len(faces)) if faces and self.happens(0.98) else len(faces)}"
        if kind == "mode":
            return f"t interpolateboundary 1/0/0 {self.random.randint(0, 2)}"
        if kind == "dropped":
            return f"t facevaryinginterpolateboundary 1/0/0 {self.random.randint(0, 2)}"
        return f"t creasemethod 0/0/1 {self.random.choice(['normal', 'chaikin', 'chaikin'])}"

    def coordinates(self) -> Callable[[], str]:
        """What makes the coordinates of a mesh: small whole numbers, mostly, or fractions, decimals, or numbers that are
        great or fine, with which values overflow sooner or later."""
        digits = self.random.randint(26, 37)
        return self.random.choices(
            [
                lambda: str(self.random.randint(-9, 9)),
                lambda: f"{self.random.randint(-99, 99)}/{self.random.choice([1, 2, 3, 7, 12])}",
                lambda: f"{self.random.randint(-1, 1)}.{self.random.randint(0, 999):03}",
                lambda: str(self.random.randint(-(10**digits) + 1, 10**digits - 1)),
                lambda: f"{self.random.randint(-9, 9)}/{10 ** (digits - 1)}",
            ],
            [10, 2, 1, 2, 2],
        )[0]

    def places(self, numbers: Iterable[int], count: int) -> list[int]:
        """Numbers from 0 as indices: from 1, or now and then back from the last of so many."""
        back = self.happens(0.1)
        return [number - count if back else number + 1 for number in numbers]

    def face_line(self, face: tuple[int, ...], numbers: list[int], counts: tuple[int, int]) -> str:
        """A face with texture, over so many points and so many values."""
        pairs = zip(self.places(face, counts[0]), self.places(numbers, counts[1]))
        end = self.random.choice(["", "", "/1"])
        return "f " + " ".join(f"{vertex}/{number}{end}" for vertex, number in pairs)

    def value_line(self, axes: Sequence[Callable[[], str]]) -> str:
        """A texture value of two axes, of which the second may be missing, or a third follow."""
        words = [coordinate() for coordinate in (*axes, axes[0])]
        return "vt " + " ".join(words[: self.random.choice([1, 2, 2, 2, 3])])

    def textured_lines(self, points: list[str], faces: list[tuple[int, ...]]) -> list[str]:
        """The lines of points, of texture values, and of faces, of which now and then the last lacks texture. The values
        that no corner names may be of another kind than those that are named, or as great as a number can be."""
        corners, named, count = self.textures.corners(faces)
        first, great = self.coordinates(), lambda: "9" * 37
        used = first, first if self.happens(0.8) else self.coordinates()
        unused = self.random.choice([used, [self.coordinates()] * 2, [great] * 2])
        lines = points + [self.value_line(used if number in named else unused) for number in range(count)]
        lines += [self.face_line(face, numbers, (len(points), count)) for face, numbers in zip(faces, corners)]
        return lines[:-1] + [self.plain_face_line(faces[-1])] if self.happens(0.03) else lines

    def plain_face_line(self, face: tuple[int, ...]) -> str:
        return "f " + " ".join(str(vertex + 1) for vertex in face)

    def surface_lines(self, count: int, faces: list[tuple[int, ...]]) -> list[str]:
        """The lines of points and faces, many with texture."""
        coordinate = self.coordinates()
        lines = [f"v {coordinate()} {coordinate()} {coordinate()}" for _ in range(count)]
        if faces and self.happens(0.45):
            return self.textured_lines(lines, faces)
        return lines + [self.plain_face_line(face) for face in faces]

    def with_tags(self, lines: list[str], tags: list[str]) -> bytes:
        """The text of lines with tags somewhere among them."""
        for tag in tags:
            lines.insert(self.random.randint(0, len(lines)), tag)
        return "".join(line + "\n" for line in lines).encode()

    def text(self) -> bytes:
        count, faces = self.mesh()
        lines = self.surface_lines(count, faces)
        tags = [self.tag(count, faces) for _ in range(self.random.choice([0, 1, 2, 4, 8]))]
        return self.with_tags(lines, tags + (self.chaikin_tags(count, faces) if self.happens(0.2) else []))

    def lasting_text(self) -> bytes:
        """A mesh in which nothing is semi-sharp, and whose tags make no dart."""
        count, faces = self.mesh()
        lines = self.surface_lines(count, faces)
        tags = [self.lasting_tag(count, faces) for _ in range(self.random.choice([0, 1, 2, 4]) if faces else 0)]
        return self.with_tags(lines, tags)
