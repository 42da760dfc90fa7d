"""What tests of the command share: a folder for its files, and runs of it in this process and in others."""

from __future__ import annotations

import contextlib
import io
import os
import signal
import subprocess
import sys
import tempfile
import unittest
from dataclasses import dataclass
from pathlib import Path
from typing import Any
from unittest import mock

PACKAGE = Path(__file__).resolve().parents[1]
sys.path.insert(0, str(PACKAGE))

from drillolive.command.main import main  # noqa: E402


@dataclass
class Ended:
    """How a run ended: its status, its standard output and its standard error."""

    status: int
    text: str
    error: str

    def lines(self, keyword: str) -> list[list[str]]:
        """Returns the words of the lines with a keyword, without it."""
        return words_of(self.text, keyword)


def words_of(text: str, keyword: str) -> list[list[str]]:
    """Returns the words of the lines of a text with a keyword, without it."""
    return [line.split()[1:] for line in text.splitlines() if line.split()[:1] == [keyword]]


def run_here(*words: Any, data: bytes = b"") -> Ended:
    """Runs the command in this process, with bytes on its standard input."""
    source = io.TextIOWrapper(io.BytesIO(data))
    output = io.TextIOWrapper(io.BytesIO())
    error = io.StringIO()
    with mock.patch("sys.stdin", source), contextlib.redirect_stdout(output), contextlib.redirect_stderr(error):
        status = main([str(word) for word in words])
        output.flush()
    return Ended(status, output.buffer.getvalue().decode(), error.getvalue())  # type: ignore[attr-defined]


def start(*words: Any, program: str | None = None, **options: Any) -> subprocess.Popen[bytes]:
    """Starts the command, or a program in Python that uses it, as a process."""
    begin = ["-m", "drillolive.command"] if program is None else ["-c", program]
    environment = {**os.environ, "PYTHONPATH": str(PACKAGE)}
    command = [sys.executable, *begin, *map(str, words)]
    return subprocess.Popen(command, env=environment, preexec_fn=hear_interrupts, **options)


def hear_interrupts() -> None:
    """Lets a process hear Ctrl-C, also where these tests were started with interrupts ignored, as by nohup."""
    signal.signal(signal.SIGINT, signal.default_int_handler)


class FolderTest(unittest.TestCase):
    """A test with a folder that is removed after it."""

    def setUp(self) -> None:
        folder = tempfile.TemporaryDirectory()
        self.addCleanup(folder.cleanup)
        self.folder = Path(folder.name)

    def file(self, name: str, text: str | bytes) -> Path:
        """Writes a file in the folder, and returns its path."""
        path = self.folder / name
        path.write_bytes(text.encode() if isinstance(text, str) else text)
        return path

    def names(self) -> list[str]:
        """Returns the names of all files in the folder."""
        return sorted(path.name for path in self.folder.iterdir())

    def done(self, *words: Any, data: bytes = b"") -> Ended:
        """Runs the command in this process, which has to end with status 0."""
        ended = run_here(*words, data=data)
        self.assertEqual(ended.status, 0, ended.error)
        return ended

    def refused(self, *words: Any, status: int = 1, data: bytes = b"") -> str:
        """Runs the command in this process, which has to end with a status and one line; returns the line."""
        ended = run_here(*words, data=data)
        self.assertEqual((ended.status, ended.text), (status, ""), ended.error)
        self.assertEqual(ended.error.count("\n"), 1, ended.error)
        return ended.error.removesuffix("\n")
