"""Compares the version of include/drillolive.h with each file that repeats it."""

from __future__ import annotations

import ast
import re
import unittest
from pathlib import Path

TOP = Path(__file__).resolve().parents[2]


def found(path: str, pattern: str) -> str:
    """Returns the first group of the first match of a pattern in a file."""
    match = re.search(pattern, (TOP / path).read_text(encoding="utf-8"), re.M)
    if match is None:
        raise AssertionError(f"{path} has no line like {pattern}")
    return match[1]


class VersionTest(unittest.TestCase):
    """The header is the source of the version."""

    def setUp(self) -> None:
        self.version = found("include/drillolive.h", r'^#define DRILLOLIVE_VERSION "(.*)"$')

    def test_form(self) -> None:
        self.assertRegex(self.version, r"^\d+\.\d+\.\d+$")

    def test_python(self) -> None:
        self.assertEqual(found("bindings/python/drillolive/_library.py", r'^VERSION = "(.*)"$'), self.version)

    def test_blender(self) -> None:
        numbers = found("bindings/blender/drillolive_blender/__init__.py", r'^    "version": (\(.*\)),$')
        self.assertEqual(".".join(map(str, ast.literal_eval(numbers))), self.version)

    def test_manual_page(self) -> None:
        self.assertEqual(found("docs/far.1", r'^\.TH FAR 1 "" "Drillolive (.*)" "User Commands"$'), self.version)

    def test_changelog(self) -> None:
        self.assertEqual(found("CHANGELOG.md", r"^## \[(\d+\.\d+\.\d+)\]"), self.version)


if __name__ == "__main__":
    unittest.main()
