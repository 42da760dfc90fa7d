"""Runs of the program for `bench/bench.py`: how long they take, how much memory, and how many instructions."""

from __future__ import annotations

import os
import re
import shutil
import subprocess
import sys
import tempfile
from pathlib import Path
from typing import Callable, NamedTuple, Sequence

# The peak of a run begins at that of the process that starts it, so that a small one does.
STARTER = """
import os, sys, time
source, sink, *words = sys.argv[1:]
read, written = os.open(source, os.O_RDONLY), os.open(sink, os.O_WRONLY | os.O_CREAT | os.O_TRUNC, 0o644)
handles = [(os.POSIX_SPAWN_DUP2, handle, to) for to, handle in enumerate((read, written, written))]
start = time.perf_counter()
process = os.posix_spawn(words[0], words, os.environ, file_actions=handles)
_, status, use = os.wait4(process, 0)
print(time.perf_counter() - start, use.ru_maxrss, os.waitstatus_to_exitcode(status))
"""

COUNT = re.compile(r"^(\d+),[^,]*,instructions|I +refs: +([\d,]+)", re.MULTILINE)
Tool = Callable[[str], Sequence[str]]  # the words before a command of which a tool writes the count to a file


class Run(NamedTuple):
    """A whole run: its seconds, its peak of memory in megabytes, and its status."""

    seconds: float
    peak: float
    status: int


def run_once(program: Path, words: str, source: Path, sink: Path) -> Run:
    """Runs the program, with reading and writing."""
    command = [sys.executable, "-I", "-S", "-c", STARTER, source, sink, program, *words.split()]
    seconds, peak, status = subprocess.run(command, stdout=subprocess.PIPE, check=True).stdout.split()
    return Run(float(seconds), int(peak) / 1024, int(status))


def with_perf(log: str) -> Sequence[str]:
    return "perf", "stat", "-x,", "-e", "instructions:u", "-o", log, "--"


def with_valgrind(log: str) -> Sequence[str]:
    return "valgrind", "--tool=cachegrind", "--cache-sim=no", "--cachegrind-out-file=/dev/null", f"--log-file={log}"


def instructions(tool: Tool, command: Sequence[str], source: str, sink: str) -> int | None:
    """How many instructions a command takes outside of the system; nothing where the tool cannot count them."""
    with tempfile.TemporaryDirectory() as folder:
        log = Path(folder) / "log"
        with open(source, "rb") as read, open(sink, "wb") as written:
            subprocess.run([*tool(str(log)), *command], stdin=read, stdout=written, stderr=written, check=False)
        count = COUNT.search(log.read_text()) if log.is_file() else None
    return int((count[1] or count[2]).replace(",", "")) if count else None


def tool_that_counts() -> Tool | None:
    """The first tool of this machine that counts instructions; nothing where there is none."""
    for name, tool in [("perf", with_perf), ("valgrind", with_valgrind)]:
        if shutil.which(name) and instructions(tool, ["/bin/true"], os.devnull, os.devnull):
            return tool
    return None
