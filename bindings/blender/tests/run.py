"""Runs the tests of the add-on in Blender: blender -b --factory-startup --python bindings/blender/tests/run.py

The last line is `N checks passed`. Blender ends with status 1 where one fails, with `--python-exit-code 1`.
"""

from __future__ import annotations

import sys
import unittest
from pathlib import Path
from typing import Any

HERE = Path(__file__).resolve().parent
sys.path[:0] = [str(HERE.parent), str(HERE)]

import drillolive_blender  # noqa: E402


class Counted(unittest.TextTestResult):
    """A result that counts the checks that pass: tests, and each part of one."""

    checks = 0

    def addSuccess(self, test: unittest.TestCase) -> None:
        """Counts a test."""
        super().addSuccess(test)
        self.checks += 1

    def addSubTest(self, test: unittest.TestCase, part: unittest.TestCase, error: Any) -> None:
        """Counts a part of a test."""
        super().addSubTest(test, part, error)
        self.checks += error is None


def words_of(line: list[str]) -> list[str]:
    """Returns the words of Blender's command line that are for the tests: those behind `--`."""
    return line[line.index("--") + 1 :] if "--" in line else []


def main() -> None:
    """Runs the tests whose files begin with the word behind `--`. RuntimeError: one fails."""
    drillolive_blender.register()
    only = (words_of(sys.argv) or ["test_"])[0]
    tests = unittest.defaultTestLoader.discover(str(HERE), f"{only}*.py")
    result = unittest.TextTestRunner(resultclass=Counted, verbosity=2, stream=sys.stdout).run(tests)
    drillolive_blender.unregister()
    if not result.wasSuccessful() or not result.checks:
        raise RuntimeError("a check failed")
    print(f"{result.checks} checks passed")


main()
