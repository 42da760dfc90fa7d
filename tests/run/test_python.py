#!/usr/bin/env python3
"""Runs the tests of the Python package with every interpreter that is there: Python 3.9 or later.

    tests/run/test_python.py
    tests/run/test_python.py --only test_table

An interpreter that has numpy runs them twice, the second time as if it had not. Tests in a browser are run once, and anew
up to twice where they fail, since a busy machine loses frames. Each reason to skip a test is a line. The library is the one
of build/lib, or the one that the variable DRILLOLIVE_LIBRARY names. The last line is `the Python package: N tests passed`, and the exit
status 0. The status is 1 where a test fails, and 0 with another line where the library is not built.
"""

from __future__ import annotations

import argparse
import os
import re
import shutil
import subprocess
import sys

from paths import TOP

PACKAGE = TOP / "bindings" / "python"
TESTS = PACKAGE / "tests"
NAMES = ["python3", *(f"python3.{minor}" for minor in range(9, 20))]
FOLDERS = ["/usr/bin", "/usr/local/bin"]
IN_BROWSER, TRIES = "test_view_browser", 3

# What an interpreter prints of itself: where it is, whether it is new enough, and whether it has numpy.
ASK = """
import os, sys
has_numpy = False
try:
    import numpy
    has_numpy = True
except ImportError:
    pass
print(os.path.realpath(sys.executable), sys.version_info >= (3, 9), has_numpy, sep="\\n")
"""

RUN = "import sys, unittest\nif sys.argv.pop(1) == 'without': sys.modules['numpy'] = None\nunittest.main(module=None)\n"


class Interpreter:
    """An interpreter, and whether it has numpy."""

    def __init__(self, path: str, has_numpy: bool):
        self.path, self.has_numpy = path, has_numpy

    def run(self, only: str, is_without: bool, has_browser: bool) -> tuple[bool, int]:
        """Runs the tests, those in a browser where they are wanted. Returns whether they pass, and how many they are."""
        words = [self.path, "-c", RUN, "without" if is_without else "with"]
        words += ["discover", "-v", "-s", str(TESTS), "-p", f"{only}*.py"]
        variables = {**os.environ, "PYTHONPATH": os.pathsep.join([str(PACKAGE), str(TESTS)])}
        if not has_browser:
            variables["DRILLOLIVE_NO_BROWSER"] = "1"
        done = subprocess.run(words, env=variables, stderr=subprocess.PIPE, universal_newlines=True)
        count = re.search(r"^Ran (\d+) tests? in", done.stderr, re.M)
        skipped = re.search(r"skipped=(\d+)", done.stderr)
        passed = int(count[1]) - int(skipped[1] if skipped else 0) if count else 0
        kind = "without numpy" if is_without or not self.has_numpy else "with numpy"
        for reason in sorted(set(re.findall(r"skipped ['\"](.*)['\"]$", done.stderr, re.M))):
            if has_browser or "Chromium" not in reason:
                print(f"skipped: {reason}")
        print(f"{self.path}, {kind}: {passed} tests passed" if done.returncode == 0 else done.stderr, flush=True)
        return done.returncode == 0 and (passed > 0 or bool(skipped)), passed


def run_in_browser(interpreter: Interpreter) -> tuple[bool, int]:
    """Runs the tests in a browser until they pass, at most three times. Returns whether they pass, and how many they are."""
    for _ in range(TRIES):
        passes, count = interpreter.run(IN_BROWSER, is_without=False, has_browser=True)
        if passes:
            break
        print("the tests in a browser failed", flush=True)
    return passes, count


def interpreters() -> list[Interpreter]:
    """The interpreters that are there, each once."""
    paths = [sys.executable, *filter(None, map(shutil.which, NAMES))]
    paths += [f"{folder}/{name}" for folder in FOLDERS for name in NAMES if os.access(f"{folder}/{name}", os.X_OK)]
    found = {}
    for path in paths:
        words = [path, "-c", ASK]
        done = subprocess.run(words, stdout=subprocess.PIPE, stderr=subprocess.DEVNULL, universal_newlines=True)
        lines = done.stdout.split()
        if done.returncode == 0 and lines[1] == "True":
            found.setdefault(lines[0], Interpreter(path, lines[2] == "True"))
    return list(found.values())


def has_library() -> bool:
    """Whether there is a library to test with."""
    return bool(os.environ.get("DRILLOLIVE_LIBRARY")) or (TOP / "build/lib/libdrillolive.so").is_file()


def main() -> int:
    parser = argparse.ArgumentParser(description="Runs the tests of the Python package.")
    parser.add_argument("--only", default="test_", metavar="NAME", help="only the files of tests whose name begins so")
    only = parser.parse_args().only
    if not has_library():
        print("the library is not built: the Python package is not tested")
        return 0
    runs = [(one, is_without) for one in interpreters() for is_without in ([False, True] if one.has_numpy else [False])]
    outcomes = [one.run(only, is_without, has_browser=False) for one, is_without in runs]
    if IN_BROWSER.startswith(only):
        outcomes.append(run_in_browser(runs[0][0]))
    if not all(passes for passes, _ in outcomes):
        print("the Python package: a test failed")
        return 1
    print(f"the Python package: {sum(count for _, count in outcomes)} tests passed")
    return 0


if __name__ == "__main__":
    sys.exit(main())
