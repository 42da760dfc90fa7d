"""Tests of `drillolive check`: faults and warnings in the lines and numbers of a file."""

from __future__ import annotations

import re
import unittest
from random import Random

from command_runs import FolderTest, run_here
from plain_faults import Face, fans_at, faulty_edges, faulty_faces, grid_faces, obj_text, random_faces
from support import EXAMPLES, example

from drillolive.command.faults import listed, sentences_of_faults
from drillolive.command.obj_file import read_obj_file
from drillolive.command.warnings import value_of, warnings_of

SQUARE = "v 0 0 0\nv 1 0 0\nv 1 1 0\nv 0 1 0\n"
SEVEN = "".join(f"v {number} {number * number} 0\n" for number in range(7))
NEARLY_1 = "1.00000000000000000001"  # 1 is the nearest double
ZERO_EDGES = "v 0 0 0\nv 0 0 0\nv 1 0 0\nv 1 1 0\nv 0 0 0\nv 0 0 0\nv 2 0 0\nv 2 2 0\n"
TWO_QUADS = "v 0 0 0\nv 1 0 0\nv 1 1 0\nv 0 1 0\nv 2 0 0\nv 2 1 0\n"


def faults_in(text: str) -> list[str]:
    return sentences_of_faults(read_obj_file(text.encode()))


def warnings_in(text: str, depth: int | None = None) -> list[str]:
    return warnings_of(read_obj_file(text.encode()), depth)


def numbers_in(text: str) -> set[int]:
    return set(map(int, re.findall(r"\d+", text)))


class Faults(unittest.TestCase):
    CASES = [
        ("a manifold", SQUARE + "f 1 2 3 4", []),
        ("two corners", SQUARE + "f 1 2 3\nf 1 3", ["line 6: this face has fewer than three corners. "]),
        ("a repeated point", SQUARE + "f 1 2 3 1", ["line 5: this face repeats a point. "]),
        (
            "a flipped face",
            TWO_QUADS + "# a comment\nf 1 2 3 4\n\nf 2 3 6 5",
            ["lines 8 and 10: both faces go from point 2 to point 3, so that one of them is flipped. "],
        ),
        (
            "a third face",
            SEVEN + "f 1 2 3\nf 2 1 4\nf 1 2 5\nf 2 1 6",
            ["lines 8, 9, 10 and 11: the edge from point 1 to point 2 has more than two faces. "],
        ),
        (
            "two fans",
            SEVEN + "f 1 2 3\nf 1 3 4\nf 1 5 6",
            ["line 1: point 1 joins 2 fans of faces, which meet only there: lines 8 and 9; line 10. "],
        ),
        (
            "two fans beside a flipped face",
            SEVEN + "v 9 9 9\nf 1 2 3\nf 1 4 5\nf 6 7 8\nf 6 7 5",
            [
                "lines 11 and 12: both faces go from point 6 to point 7, so that one of them is flipped. ",
                "line 1: point 1 joins 2 fans of faces, which meet only there: line 9; line 10. ",
                "line 5: point 5 joins 2 fans of faces, which meet only there: line 10; line 12. ",
            ],
        ),
        (
            "lines that are joined, and numbers that count back",
            "v 0 0 0\nv 1 \\\n0 0\nv 1 1 0\nv 0 1 0\nf -4 -3 \\\n-2 -1\nf -2\\\n -1",
            ["line 8: this face has fewer than three corners. "],
        ),
        (
            "curves between",
            SQUARE + "curv 0 1 1 2\nf 1 2 3\nf 4 2",
            ["line 7: this face has fewer than three corners. "],
        ),
    ]

    def test_each_kind(self) -> None:
        for name, text, wanted in self.CASES:
            with self.subTest(name):
                found = faults_in(text)
                self.assertEqual([line for line in found if not line.startswith(tuple(wanted))], [])
                self.assertEqual(len(found), len(wanted))
                for line, cause in zip(found, wanted):
                    advice = line.removeprefix(cause)
                    self.assertRegex(advice, r"^[A-Z][^.]+\.$")

    def test_random_meshes(self) -> None:
        random = Random(5)
        for seed in range(400):
            faces = random_faces(random)
            with self.subTest(seed=seed, faces=faces):
                text = obj_text([(number, 0, 0) for number in range(30)], faces)
                self.assertEqual(parsed(faults_in(text)), counted(faces))

    def test_long_lists_are_counted(self) -> None:
        self.assertEqual(listed([3], "line", "lines"), "line 3")
        self.assertEqual(listed(range(1, 13), "line", "lines"), "lines 1, 2, 3, 4, 5, 6, 7, 8, 9, 10, 11 and 12")
        self.assertEqual(listed(range(1, 31), "line", "lines"), "lines 1, 2, 3, 4, 5, 6, 7, 8, 9, 10, 11 and 19 more")


def counted(faces: list[Face]) -> set[tuple[str, frozenset[int]]]:
    """Returns the faults of faces by a plain count: what is wrong, and the lines of the faces behind 30 points."""
    small, twice = faulty_faces(faces)
    kept = {number: face for number, face in enumerate(faces) if number not in {*small, *twice}}
    many, flipped = faulty_edges(kept)
    found = {("few", frozenset([31 + face])) for face in small} | {("twice", frozenset([31 + face])) for face in twice}
    for kind, edges in (("many", many), ("flipped", flipped)):
        for edge, numbers in edges.items():
            found.add((f"{kind} {sorted(point + 1 for point in edge)}", frozenset(31 + face for face in numbers)))
    touched = {point for face in [*small, *twice] for point in faces[face]}.union(*many, *flipped)
    for point in {point for face in faces for point in face} - touched:
        groups = fans_at(point, faces)
        if len(groups) > 1:
            found |= {(f"fan at {point + 1}", frozenset(31 + face for face in group)) for group in groups}
    return found


def parsed(sentences: list[str]) -> set[tuple[str, frozenset[int]]]:
    """Returns the faults that sentences tell, as `counted` does."""
    found = set()
    for sentence in sentences:
        where, what = sentence.partition(". ")[0].split(": ", 1)
        lines = frozenset(numbers_in(where))
        if "fewer than three" in what:
            found.add(("few", lines))
        elif "repeats" in what:
            found.add(("twice", lines))
        elif "fans" in what:
            cause, _, groups = what.partition(": ")
            point = int(re.search(r"point (\d+)", cause)[1])
            found |= {(f"fan at {point}", frozenset(numbers_in(group))) for group in groups.split("; ")}
        else:
            ends = sorted(map(int, re.search(r"from point (\d+) to point (\d+)", what).groups()))
            found.add((f"{'many' if 'more than two' in what else 'flipped'} {ends}", lines))
    return found


class Warnings(unittest.TestCase):
    def test_texture(self) -> None:
        values = "vt 0 0\nvt 1 0\nvt 1 1\nvt 0 1\nvt 2 0\nvt 2 1\n"
        cases = [
            ("welded", values + "f 1/1 2/2 3/3 4/4\nf 2/2 5/5 6/6 3/3", None),
            ("a seam of other values", values + "vt 3 3\nvt 4 4\nf 1/1 2/2 3/3 4/4\nf 2/7 5/5 6/6 3/8", None),
            (
                "one point",
                values + "vt 1.0 0e5\nvt 7 7\nf 1/1 2/2 3/3 4/4\nf 2/7 5/5 6/6 3/8",
                "lines 15 and 16: vt 2 and 7 are equal and not welded at point 2. ",
            ),
            (
                "two points",
                values + "vt 10e-1\nvt 2/2 1\nf 1/1 2/2 3/3 4/4\nf 2/7 5/5 6/6 3/8",
                "lines 15 and 16: vt 2 and 7 are equal and not welded at point 2, and others at 1 more points. ",
            ),
            ("nearly equal values", values + f"vt {NEARLY_1} 0\nf 1/1 2/2 3/3 4/4\nf 2/7 5/5 6/6 3/3", None),
            ("faces without texture", values + "f 1/1 2/2 3/3 4/4\nf 2 5 6 3", None),
        ]
        self.assert_warnings([(name, TWO_QUADS + text, wanted) for name, text, wanted in cases])

    def test_open_seams(self) -> None:
        doubled = "v 0 0 0\nv 1 0 0\nv 1 1 0\nv 0 1 0\nv 1.0 0 0\nv 2 0 0\nv 2 1 0\nv 1 2/2 0\n"
        cases = [
            ("joined", TWO_QUADS + "f 1 2 3 4\nf 2 5 6 3", None),
            (
                "open",
                doubled + "f 1 2 3 4\nf 5 6 7 8",
                "lines 9 and 10: the edges from point 2 to 3 and 8 to 5 lie at one place, and no face joins them. ",
            ),
            ("apart", doubled.replace("v 1.0 0 0", "v 1.1 0 0") + "f 1 2 3 4\nf 5 6 7 8", None),
            ("nearly at one place", doubled.replace("v 1.0 ", f"v {NEARLY_1} ") + "f 1 2 3 4\nf 5 6 7 8", None),
            ("edges of length 0", ZERO_EDGES + "f 1 2 3 4\nf 5 6 7 8", None),
        ]
        self.assert_warnings(cases)

    def test_creases(self) -> None:
        quads = TWO_QUADS + "f 1 2 3 4\nf 2 5 6 3\n"
        line_9 = "line 9: the crease from point"
        cases = [
            ("on edges", quads + "t crease 4/1/0 1 2 3 0 2\nt corner 1/1/0 4 1\nt hole 1/0/0 0", None),
            ("across a face", quads + "t crease 2/1/0 2 0 2", f"{line_9} 3 to point 1 is on no edge and has no effect. "),
            (
                "a chain",
                quads + "t crease 4/3/0 0 1 5 3 2 1 2",
                f"{line_9} 2 to point 6 is on no edge and has no effect, like 1 more. ",
            ),
            ("beside no face", SQUARE + "t crease 2/1/0 0 1 2", "line 5: the crease from point 1 to point 2 is on no edge"),
        ]
        self.assert_warnings(cases)

    def assert_warnings(self, cases: list[tuple[str, str, str | None]]) -> None:
        for name, text, wanted in cases:
            with self.subTest(name):
                found = warnings_in(text)
                self.assertEqual(len(found), wanted is not None, found)
                if wanted is not None:
                    self.assertTrue(found[0].startswith(wanted), found)

    def test_all_seams_of_a_cut_grid(self) -> None:
        faces = [tuple(4 * number + corner for corner in range(4)) for number in range(9)]
        places = [((point % 4, point // 4, 0)) for face in grid_faces(3, 3) for point in face]
        found = warnings_in(obj_text(places, faces))
        self.assertIn("and so do edges at 11 more places", found[0])

    def test_values_of_numerals(self) -> None:
        values = {
            0.5: ["0.50", "+5e-1", ".5", "1/2", "+2/4", "001/002"],
            1000: ["1.e3", "1000", "2000/2"],
            0: ["-0", "-0/7", "0e999999999999999999999"],
        }
        for value, words in values.items():
            self.assertEqual([value_of(word) for word in words], [value] * len(words))

    def test_digits(self) -> None:
        cube = example("cube").decode()
        self.assertEqual(warnings_in(cube, 4), [])
        for whole in ("234567890", "2345678901", "23456789012", "234567890123"):
            fine = re.sub(r"^v (\S+)", rf"v \g<1>{whole}.12345678901234567", cube, flags=re.M)
            self.assertEqual(warnings_in(fine), [])
            (warning,) = warnings_in(fine, 5)
            cause = f"line 1: coordinates such as -1{whole}.12345678901234567 have too many digits for depth 5. "
            self.assertTrue(warning.startswith(cause), warning)
            decimals = int(re.search(r"--round (\d+)", warning)[1])
            for rounded, status in ((decimals, 0), (decimals + 1, 1)):
                with self.subTest(whole=whole, rounded=rounded):
                    ended = run_here("refine", "-d", 5, "--round", rounded, data=fine.encode())
                    self.assertEqual(ended.status, status, ended.error)

    def test_what_rounding_does_not_help(self) -> None:
        found = warnings_in(example("cube").decode(), 10)
        self.assertEqual(len(found), 1)
        self.assertTrue(found[0].startswith("level 10 has 6291456 faces. "), found)
        self.assertNotIn("--round", found[0])


class Command(FolderTest):
    def test_examples_are_manifolds(self) -> None:
        for path in sorted(EXAMPLES.glob("*.obj")):
            with self.subTest(path.name):
                ended = self.done("check", path)
                self.assertEqual(ended.error, "")
                self.assertIn(": a manifold, ", ended.text.splitlines()[-1])

    def test_faults_end_with_status_1(self) -> None:
        text = SEVEN + "vp 1 2\nf 1 2 3\nf 1 2 4\nf 1 2\n"
        for words in ([], ["-"]):
            ended = run_here("check", *words, data=text.encode())
            lines = ended.text.splitlines()
            self.assertEqual((ended.status, ended.error), (1, ""))
            self.assertEqual([line.partition(": ")[0] for line in lines[:-1]], ["fault"] * 2 + ["warning"])
            self.assertIn("line 8: vp is left out", lines[2])
            summary = "standard input: 2 faults, 1 warning; `drillolive check --split` makes a manifold"
            self.assertEqual(lines[-1], summary)

    def test_refusals(self) -> None:
        face = SQUARE + "f 1 2 3 4\n"
        cases = [
            (["-o", "out.obj"], face, 2, "--split"),
            (["-d", "1", "--split"], face, 2, "-d and --split exclude each other"),
            (["-d", "11"], face, 2, "0 to 10"),
            ([], SQUARE + "f 1 2 9", 1, "line 5: index out of range"),
            ([], "v 0 0 nan\n" + SQUARE + "f 1 2 3", 1, "line 1: bad numeral"),
            ([], SQUARE, 1, "the file has no faces"),
            (["--split"], SQUARE, 1, "the file has no faces"),
            ([self.folder / "missing.obj"], "", 1, "missing.obj"),
        ]
        for words, text, status, cause in cases:
            with self.subTest(words=words, cause=cause):
                self.assertIn(cause, self.refused("check", *words, status=status, data=text.encode()))
        self.assertEqual(self.names(), [])

    def test_depth(self) -> None:
        ended = self.done("check", "-d", 10, EXAMPLES / "cube.obj")
        self.assertEqual(ended.error, "")
        self.assertIn("warning: level 10 has 6291456 faces. ", ended.text)


if __name__ == "__main__":
    unittest.main()
