"""Runs of the program inside the process."""

from __future__ import annotations

import unittest

from support import CUBE_FACES, CUBE_POINTS, example, obj_text

import drillolive


class Runs(unittest.TestCase):
    """What the program answers."""

    def test_answers(self) -> None:
        cases = [
            (["levels", "depth=0"], example("cube"), 0, "level 0 points 8 edges 12 faces 6", ""),
            (["refine", "depth=0"], obj_text(CUBE_POINTS, CUBE_FACES), 0, "v -1 -1 -1\nv 1 -1 -1\n", ""),
            (["refine", "depth=x"], example("cube"), 2, "", "far: word 1 is not understood\n"),
            ([], b"", 2, "", "far: word 0 is not understood\n"),
            (["refine", "depth=1"], b"v 1 2\n", 5, "", "far: line 1: line too short\n"),
            (["gen", "seed=0", "size=1", "depth=1"], b"", 0, "", ""),
        ]
        for words, text, status, begin, error in cases:
            with self.subTest(words):
                run = drillolive.run(words, text)
                self.assertEqual((run.status, run.error), (status, error))
                self.assertEqual(run.text[: len(begin)], begin)
                self.assertEqual(bool(run.text), status == 0)

    def test_text(self) -> None:
        text = example("cube")
        words = ["refine", "depth=1"]
        self.assertEqual(drillolive.run(words, text.decode()), drillolive.run(words, text))


if __name__ == "__main__":
    unittest.main()
