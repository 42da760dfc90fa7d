#!/usr/bin/env python3
"""Runs the cases of a folder on the built program, and compares what it writes and how it ends.

A case is a folder that has a file `words`; it may lie at any depth. Its files:

    words    the command line after the program's name, one word a line
    stdin    standard input; none: empty
    stdout   the standard output that is wanted; none: empty
    stderr   the standard error that is wanted; none: empty
    status   the exit status that is wanted; none: 0
    slow     why the case takes a slow program too long; none: it does not

All outputs are compared byte for byte. The program may be a Python file, such as that of the reference:

    tests/run/run_cases.py --program tests/reference/reference.py --spare-slow

Each failing case is printed with a short difference. With `--spare-slow` each case that has a file `slow` is left out, and
printed with the reason. The last line is `N passed, M failed`. The exit status is 0 where all pass, 1 where a case fails or
there is none to run, and 2 where the program or the folder is missing.
"""

from __future__ import annotations

import argparse
import difflib
import os
import subprocess
import sys
from concurrent.futures import ThreadPoolExecutor
from pathlib import Path

from paths import PROGRAM, TOP

MOST_LINES = 12
MOST_CHARACTERS = 120


def find_cases(folder: Path) -> list[Path]:
    """All folders at or below `folder` that have a file `words`, in order of their names."""
    return sorted(Path(place) for place, _, files in os.walk(folder) if "words" in files)


def content(path: Path) -> bytes:
    """The bytes of a file of a case; none where the file is missing."""
    return path.read_bytes() if path.exists() else b""


def words_of(data: bytes) -> list[bytes]:
    """One word a line. A line may be empty: then so is the word."""
    words = data.split(b"\n")
    return words[:-1] if words[-1] == b"" else words


def wanted_status(path: Path) -> int:
    return int(path.read_text()) if path.exists() else 0


def command_of(program: Path) -> list[str | bytes]:
    """How the program is called: a Python file by this interpreter, without packages that are installed."""
    return ([sys.executable, "-E", "-S"] if program.suffix == ".py" else []) + [os.fsencode(program)]


def shown(line: bytes) -> str:
    """A line with its other bytes escaped, cut where it is long."""
    text = line.decode("utf-8", "backslashreplace").encode("unicode_escape").decode("ascii")
    return text if len(text) <= MOST_CHARACTERS else text[:MOST_CHARACTERS] + " .."


def difference(name: str, wanted: bytes, got: bytes) -> list[str]:
    """The first lines in which `got` differs from `wanted`; none where they are the same."""
    if wanted == got:
        return []
    before = [shown(line) for line in wanted.splitlines(keepends=True)]
    after = [shown(line) for line in got.splitlines(keepends=True)]
    lines = list(difflib.unified_diff(before, after, f"{name} wanted", f"{name} written", n=1, lineterm=""))
    if len(lines) > MOST_LINES:
        lines[MOST_LINES:] = [f".. {len(lines) - MOST_LINES} more lines"]
    return lines


def run_case(program: Path, case: Path, seconds: float) -> list[str]:
    """The lines that say how the case fails; none where it passes."""
    command = command_of(program) + words_of(content(case / "words"))
    try:
        done = subprocess.run(command, input=content(case / "stdin"), capture_output=True, timeout=seconds)
    except subprocess.TimeoutExpired:
        return [f"no end after {seconds:g} seconds"]
    except (OSError, ValueError) as fault:
        return [f"not run: {fault}"]
    status = wanted_status(case / "status")
    faults = [] if status == done.returncode else [f"status wanted {status}, got {done.returncode}"]
    faults += difference("stderr", content(case / "stderr"), done.stderr)
    faults += difference("stdout", content(case / "stdout"), done.stdout)
    return faults


def run_cases(cases: list[Path], options: argparse.Namespace) -> int:
    """Runs cases side by side, prints those that fail, and returns how many these are."""
    failed = 0
    with ThreadPoolExecutor(options.jobs) as pool:
        outcomes = pool.map(lambda case: run_case(options.program, case, options.seconds), cases)
        for case, faults in zip(cases, outcomes):
            if faults:
                failed += 1
                print(f"FAILED {case.relative_to(options.cases)}")
                print("".join(f"    {line}\n" for line in faults), end="", flush=True)
    return failed


def without_slow(cases: list[Path], folder: Path) -> list[Path]:
    """The cases that no file `slow` spares. Prints the others with the reason."""
    for case in cases:
        if (case / "slow").exists():
            print(f"spared {case.relative_to(folder)}: {(case / 'slow').read_text().strip()}")
    return [case for case in cases if not (case / "slow").exists()]


def arguments() -> argparse.Namespace:
    parser = argparse.ArgumentParser(description="Runs the cases of a folder on the built program.")
    parser.add_argument("--program", type=Path, default=TOP / PROGRAM, help="the program to run, or a Python file")
    parser.add_argument("--cases", type=Path, default=TOP / "cases", help="the folder of cases")
    parser.add_argument("--only", default="", metavar="TEXT", help="only the cases whose path has this text")
    parser.add_argument("--spare-slow", action="store_true", help="leave out the cases that have a file `slow`")
    parser.add_argument("--seconds", type=float, default=60, help="the time that one case may take")
    parser.add_argument("--jobs", type=int, default=os.cpu_count(), help="how many cases run side by side")
    return parser.parse_args()


def main() -> int:
    options = arguments()
    options.program = options.program.resolve()
    if not options.program.is_file() or not os.access(options.program, os.X_OK):
        print(f"no program {options.program}: `./far --build` at the top of the repository builds one", file=sys.stderr)
        return 2
    if not options.cases.is_dir():
        print(f"no folder {options.cases}", file=sys.stderr)
        return 2
    cases = [case for case in find_cases(options.cases) if options.only in str(case.relative_to(options.cases))]
    if options.spare_slow:
        cases = without_slow(cases, options.cases)
    failed = run_cases(cases, options)
    print(f"{len(cases) - failed} passed, {failed} failed")
    return 0 if cases and not failed else 1


if __name__ == "__main__":
    sys.exit(main())
