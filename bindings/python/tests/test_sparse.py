"""Sparse levels, against the program's own text."""

from __future__ import annotations

import unittest

from support import cube, example, fractions_of, listed, meshes, nearest

import drillolive

LETTERS = {"h": "hole", "r": "outer", "s": "selected", "l": "leaf"}


def parts_of(text: str) -> list[str]:
    """Returns the text of each level, without its first line."""
    return [part.partition("\n")[2] for part in ("\n" + text).split("\nlevel ")[1:]]


class Sparse(unittest.TestCase):
    """Sparse levels of all examples."""

    def test_against_the_program(self) -> None:
        for name in meshes():
            for select, word in (("features", "feature"), ("all", "all")):
                depth = 2 if select == "all" else 3
                answer = drillolive.run(["sparse", f"depth={depth}", f"select={word}"], example(name))
                with self.subTest(name, select=select):
                    self.assertEqual(answer.status, 0)
                    self.check_levels(drillolive.Mesh.from_obj(example(name)).sparse(depth, select), answer.text)

    def check_levels(self, levels: drillolive.SparseLevels, text: str) -> None:
        """Compares levels with the text of the program."""
        parts = parts_of(text)
        self.assertEqual(len(levels), len(parts))
        for level, part in zip(levels, parts):
            wanted = fractions_of(part)
            self.assertEqual(level.exact(), wanted)
            self.assertEqual(listed(level.points), nearest(wanted))
            lines = [line.split()[1:] for line in part.splitlines() if line.startswith("f ")]
            kinds = [drillolive.FACE_KINDS[kind] for kind in level.kinds]
            self.assertEqual(kinds, [LETTERS[line[0]] for line in lines])
            self.assertEqual(listed(level.numbers), [int(line[1]) for line in lines])
            self.assertEqual(listed(level.face_sizes), [len(line) - 2 for line in lines])
            faces = [tuple(face) for face in listed(level.faces)]
            self.assertEqual(faces, [tuple(int(corner) - 1 for corner in line[2:]) for line in lines])
            self.assertEqual(sum(listed(level.face_sizes)), len(level.corners))

    def test_sequence(self) -> None:
        levels = cube().sparse(3)
        self.assertEqual(len(levels), 4)
        self.assertIs(levels[-1], levels[3])
        self.assertEqual(levels[1:3], [levels[1], levels[2]])
        self.assertEqual(levels.counts.points, sum(len(level.points) for level in levels))
        self.assertIs(levels[2].exact(), levels[2].exact())


if __name__ == "__main__":
    unittest.main()
