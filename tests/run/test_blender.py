#!/usr/bin/env python3
"""Runs the tests of the Blender add-on in Blender, with a profile of its own.

    tests/run/test_blender.py
    tests/run/test_blender.py --only test_faults

Blender is the command `blender`, or the one that the variable BLENDER names: 3.4 or later. The library is the one of
build/lib, or the one that the variable DRILLOLIVE_LIBRARY names. The last line is
`the Blender add-on: N checks passed`, and the exit status 0. The status is 1 where a check fails, and 0 with another
line where Blender or the library is not there.
"""

from __future__ import annotations

import argparse
import os
import re
import shutil
import subprocess
import sys
import tempfile
from pathlib import Path

from paths import TOP
from test_python import has_library

TESTS = TOP / "bindings" / "blender" / "tests"
OPTIONS = ["-b", "--factory-startup", "--python-exit-code", "1", "--python", str(TESTS / "run.py")]


def run_blender(blender: str, only: str) -> tuple[bool, int]:
    """Runs the tests, and passes on what Blender prints. Returns whether they pass, and how many checks they are."""
    count = 0
    with tempfile.TemporaryDirectory() as folder:
        own = {"BLENDER_USER_SCRIPTS": f"{folder}/scripts", "BLENDER_USER_CONFIG": f"{folder}/config"}
        # A Blender of the system takes the modules of the first Python on the path, which has to be the system's.
        path = os.pathsep.join([str(Path(blender).parent), os.environ.get("PATH", "")])
        variables = {**os.environ, **own, "PATH": path}
        words = [blender, *OPTIONS, "--", only]
        with subprocess.Popen(words, env=variables, stdout=subprocess.PIPE, stderr=subprocess.STDOUT, text=True) as run:
            for line in run.stdout:
                print(line, end="", flush=True)
                found = re.fullmatch(r"(\d+) checks passed\n", line)
                count = int(found[1]) if found else count
    return run.returncode == 0 and count > 0, count


def main() -> int:
    parser = argparse.ArgumentParser(description="Runs the tests of the Blender add-on.")
    parser.add_argument("--only", default="test_", metavar="NAME", help="only the files of tests whose name begins so")
    only = parser.parse_args().only
    blender = shutil.which(os.environ.get("BLENDER") or "blender")
    if not blender:
        print("Blender is not installed: the Blender add-on is not tested")
        return 0
    if not has_library():
        print("the library is not built: the Blender add-on is not tested")
        return 0
    passes, count = run_blender(blender, only)
    print(f"the Blender add-on: {count} checks passed" if passes else "the Blender add-on: a check failed")
    return 0 if passes else 1


if __name__ == "__main__":
    sys.exit(main())
