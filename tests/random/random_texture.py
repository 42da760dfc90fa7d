"""Random texture for the faces of a mesh: texture values in number and place, and the corners that name them.

There may be no seams, charts with seams between them, faces with texture corners of their own, single corners that are
cut loose, so that an edge differs at one end only, and numbers that several vertices or several charts share. Some
values are named by no corner. `tests/random/random_meshes.py` writes them."""

from __future__ import annotations

from draws import Draws


class Textures(Draws):
    """Random texture."""

    def charts(self, faces: list[tuple[int, ...]]) -> list[int]:
        """The chart of each face: one or a few, in runs of faces or at random, or one for each face."""
        count = self.random.choice([1, 1, 1, 2, 2, 3, len(faces)])
        if self.happens(0.5):
            return [number * count // len(faces) for number in range(len(faces))]
        return [self.random.randrange(count) for _ in faces]

    def charted(self, faces: list[tuple[int, ...]]) -> list[list[tuple]]:
        """What each corner names: its vertex in the chart of its face, or now and then something of its own; where few
        names serve all vertices, several share one."""
        charts, names = self.charts(faces), self.random.choice([1000, 1000, 1000, 3])
        loose = self.random.choice([0, 0, 0.03, 0.1, 0.4])
        return [
            [(number, vertex, "loose") if self.happens(loose) else (charts[number], vertex % names) for vertex in face]
            for number, face in enumerate(faces)
        ]

    def scattered(self, faces: list[tuple[int, ...]]) -> list[list[int]]:
        """A few values, of which each corner names any."""
        count = self.random.choice([1, 2, 4])
        return [[self.random.randrange(count) for _ in face] for face in faces]

    def corners(self, faces: list[tuple[int, ...]]) -> tuple[list[list[int]], set[int], int]:
        """For each corner of each face the number of its value, from 0; how many values are named; and how many there
        are."""
        named = self.charted(faces) if self.happens(0.9) else self.scattered(faces)
        names = list(dict.fromkeys(name for face in named for name in face))
        count = len(names) + (self.random.randint(1, 3) if self.happens(0.3) else 0)
        places = self.random.sample(range(count), len(names))
        number = dict(zip(names, places))
        return [[number[name] for name in face] for face in named], set(places), count
