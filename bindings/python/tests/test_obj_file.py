"""Tests of the reader of OBJ files, and of changes of their text."""

from __future__ import annotations

import sys
import unittest
from pathlib import Path

sys.path.insert(0, str(Path(__file__).resolve().parents[1]))

from drillolive.command import obj_file  # noqa: E402
from drillolive.command.obj_edit import rounded_numeral, rounded_points, with_points  # noqa: E402
from drillolive.command.obj_file import ObjFile, ObjFileError, Setting, read_obj_file  # noqa: E402

SQUARE = "v 0 0 0\nv 1 0 0\nv 1 1 0\nv 0 1 0\n"


def read(text: str) -> ObjFile:
    return read_obj_file(text.encode())


class Faces(unittest.TestCase):
    def test_corners(self) -> None:
        values = "vt 0 0\nvt 1\nvt 1 1\nvt 0 1 0\n"
        none = [None] * 4
        cases = [
            ("f 1 2 3 4", [0, 1, 2, 3], none),
            ("f -4 -3 -2 -1", [0, 1, 2, 3], none),
            ("f 1//9 2//9 3//-9 4//9", [0, 1, 2, 3], none),
            ("f 1/4 2/3 3/2 4/1", [0, 1, 2, 3], [3, 2, 1, 0]),
            ("\tf 4/-1/1  3/-2/1\t2/-3/1 1/-4/1 \r", [3, 2, 1, 0], [3, 2, 1, 0]),
            ("f 1 2 3 4 # 5", [0, 1, 2, 3], none),
            ("f 1 2 \\\n3 \\ \r\n4", [0, 1, 2, 3], none),
            ("f 1 2\\\n3\\\n4 # \\\nf 1 2 3", [0, 1, 2, 3, 0, 1, 2], none + [None] * 3),
        ]
        for line, corners, texture_corners in cases:
            with self.subTest(line):
                file = read(SQUARE + values + line)
                self.assertEqual(file.corners, corners)
                self.assertEqual(file.texture_corners, texture_corners)
                self.assertEqual(sum(file.face_sizes), len(corners))

    def test_a_face_may_stand_before_its_points(self) -> None:
        file = read("f 1 2 3\n" + SQUARE + "f -1 -2 -3\nv 5 5 5\nf -1 -2 -3\n")
        self.assertEqual(file.corners, [0, 1, 2, 3, 2, 1, 4, 3, 2])
        self.assertEqual(file.face_lines, [1, 6, 8])
        self.assertEqual(file.point_lines, [2, 3, 4, 5, 7])


class Lines(unittest.TestCase):
    def test_each_line_keeps_its_number(self) -> None:
        file = read("# a \\\nv 0 0 \\\n0 # b\ncurv 0 1 \\\n2 3\r\nl 1 2\nv 1 \\\n0 \\\n0\n\nv 0 1 0\nf 1 2 3\n")
        lines = file.text.decode().split("\n")
        self.assertEqual(len(lines), 13)
        self.assertEqual([lines[at] for at in (2, 3, 4, 5, 7, 8)], [""] * 6)
        self.assertEqual(lines[1].split("#")[0].split(), ["v", "0", "0", "0"])
        self.assertEqual(lines[6].split(), ["v", "1", "0", "0"])
        self.assertEqual(file.point_lines, [2, 7, 11])
        self.assertEqual(file.face_lines, [12])
        self.assertEqual(file.warnings, [(4, "curv is left out"), (6, "l is left out")])

    def test_each_statement_that_is_left_out_is_named(self) -> None:
        for word in sorted(obj_file.LEFT_OUT):
            with self.subTest(word):
                file = read(SQUARE + f" {word} 1 2\nf 1 2 3 4\n")
                self.assertEqual(file.warnings, [(5, f"{word} is left out")])
                self.assertEqual(file.text.decode().split("\n")[4], "")
        self.assertEqual(read(SQUARE + "vn 0 0 1\nf 1 2 3 4\nt hole 1/0/0 0").warnings, [])

    def test_words_of_points_and_values(self) -> None:
        file = read("\ufeffv 1/3 .5 1e2\nv 1 2 3 1\nv 1 2 3 0.5 .25 1\nv 1 2 3 1 0 0 1\nvt 0.5\nvt 1 2 3\n")
        self.assertEqual(file.points, [("1/3", ".5", "1e2")] + [("1", "2", "3")] * 3)
        self.assertEqual(file.colours, [None, None, ("0.5", ".25", "1"), ("1", "0", "0")])
        self.assertEqual(file.values, [("0.5", "0"), ("1", "2")])
        self.assertEqual(file.value_lines, [5, 6])

    def test_bytes_that_are_no_text_come_back(self) -> None:
        file = read_obj_file(b"o caf\xe9 \xff\nv 0 0 0\nv 1 0 0\nv 0 1 0\nf 1 2 3\n")
        self.assertEqual(obj_file.encode(file.settings[0].object or ""), b"caf\xe9 \xff")
        self.assertTrue(file.text.startswith(b"o caf\xe9 \xff\n"))

    def test_an_empty_file(self) -> None:
        for text in ("", "\n", "# nothing\n"):
            file = read(text)
            self.assertEqual((file.points, file.face_sizes, file.settings, file.text.decode()), ([], [], [], text))


class Settings(unittest.TestCase):
    def test_each_face_has_what_was_said_last(self) -> None:
        text = (
            "mtllib a b.mtl\n" + SQUARE + "f 1 2 3\no Top Side\ng left right\nusemtl Red #3\ns 1\nf 1 2 3\nf 1 3 4\n"
            "g left right\ns off\nf 1 2 3\ng\nf 1 3 4\no Top Side\ng left right\ns 1\nf 1 2 3\n"
            "mtllib c.mtl\nusemtl\nf 1 2 3\n"
        )
        file = read(text)
        first = Setting("Top Side", "left right", "1", "Red #3")
        second = Setting("Top Side", "left right", "off", "Red #3")
        third = Setting("Top Side", "", "off", "Red #3")
        fourth = Setting("Top Side", "left right", "1", "")
        expected = [Setting(), first, first, second, third, first, fourth]
        self.assertEqual([file.settings[at] for at in file.face_groups], expected)
        self.assertEqual(len(file.settings), 5)
        self.assertEqual(file.libraries, ["a b.mtl", "c.mtl"])

    def test_tags_are_kept_with_their_lines(self) -> None:
        file = read(SQUARE + "f 1 2 3 4\nt hole  1/0/0 0 # the only one\nt corner 1/1/0 0 2\n")
        self.assertEqual(file.tags, [(6, "t hole 1/0/0 0"), (7, "t corner 1/1/0 0 2")])


class Faults(unittest.TestCase):
    def setUp(self) -> None:
        # The library would name the same line; here the reader alone is looked at.
        judge = obj_file.refuse_as_library
        self.addCleanup(setattr, obj_file, "refuse_as_library", judge)
        obj_file.refuse_as_library = lambda text: None

    def test_a_line_that_cannot_be_read_is_named(self) -> None:
        cases = [
            ("v 0 0\n", 1, "line too short"),
            ("vt\n", 1, "line too short"),
            (SQUARE + "\nf\n", 6, "line too short"),
            (SQUARE + "f 1 2 x\n", 5, "bad face corner"),
            (SQUARE + "f /1 2/1 3/1\n", 5, "bad face corner"),
            (SQUARE + "f 1 2 0\n", 5, "index out of range"),
            (SQUARE + "f 1 2 -5\n", 5, "index out of range"),
            (SQUARE + "f 1 2 3\nf 1 2 5\nf 1 2 6\n", 6, "index out of range"),
            (SQUARE + "vt 0 0\nf 1/1 2/1 3/2\n", 6, "index out of range"),
            (SQUARE + "f 1/1 2/1 3/1\n", 5, "index out of range"),
        ]
        for text, line, message in cases:
            with self.subTest(text):
                with self.assertRaises(ObjFileError) as caught:
                    read(text)
                self.assertEqual((caught.exception.line, caught.exception.message), (line, message))
                self.assertEqual(str(caught.exception), f"line {line}: {message}")


class Changes(unittest.TestCase):
    def test_numerals_are_rounded_half_to_even(self) -> None:
        cases = [
            ("0.125", 2, "0.12"),
            ("-0.375", 2, "-0.38"),
            ("2.5", 0, "2"),
            ("1e-38", 3, "0.000"),
            ("1e36", 2, "1" + "0" * 36 + ".00"),
            ("1/3", 4, "0.3333"),
            ("-1/8", 2, "-0.12"),
            ("+10/4", 0, "2"),
            ("1/3", 18, "0." + "3" * 18),
            ("200000000000000000001/2", 18, "100000000000000000000.5" + "0" * 17),
            ("5.", 1, "5.0"),
            ("+.5", 1, "0.5"),
            ("nan", 2, "nan"),
            ("1_0", 2, "1_0"),
            ("1/0", 2, "1/0"),
            ("0e999999999999999999999", 2, "0e999999999999999999999"),
            ("1e999999999999999999999", 2, "1e999999999999999999999"),
        ]
        for word, decimals, expected in cases:
            with self.subTest(word):
                self.assertEqual(rounded_numeral(word, decimals), expected)

    def test_points_are_rounded_in_their_lines(self) -> None:
        file = read("# first\nv 0.25 1 -0.05 0.123 0 0\nvt 0.123\nv 1e0 1/2 2/3\nf 1 2 1\n")
        text, changed = rounded_points(file, 1)
        self.assertEqual(text.decode(), "# first\nv 0.2 1.0 -0.0\nvt 0.123\nv 1.0 0.5 0.7\nf 1 2 1\n")
        self.assertEqual(changed, 3)
        self.assertEqual(rounded_points(read(SQUARE), 0), (SQUARE.encode(), 0))
        self.assertEqual(with_points(read("v 1 2 3 4\n"), [("5", "6", "7")]), b"v 5 6 7\n")


if __name__ == "__main__":
    unittest.main()
