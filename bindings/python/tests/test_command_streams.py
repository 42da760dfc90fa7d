"""Tests of how the command reads, writes and ends: streams, whole files or none, Ctrl-C, and the line of progress."""

from __future__ import annotations

import os
import pty
import signal
import stat
import subprocess
import time
import unittest
from collections.abc import Callable
from pathlib import Path
from unittest import mock

from command_runs import FolderTest, run_here, start
from support import EXAMPLES

from drillolive.command.failure import BROKEN_PIPE, INTERRUPTED, CommandError
from drillolive.command.output import whole_file, write_output
from drillolive.command.progress import Progress

CUBE, DOG = EXAMPLES / "cube.obj", EXAMPLES / "dog.obj"

PATIENCE = 60.0  # after how many seconds a test gives up

# Runs the command with a line of progress after as many seconds as its first word says.
WITH_DELAY = "import sys\nfrom drillolive.command.main import main\nsys.exit(main(sys.argv[2:], float(sys.argv[1])))"


class Streams(FolderTest):
    def test_standard_input_and_output(self) -> None:
        expected = self.done("refine", "-d", 1, CUBE).text
        cases = [["-"], [], ["-o", "-"], ["-", "-o", "-"]]
        for words in cases:
            with self.subTest(words):
                self.assertEqual(self.done("refine", "-d", 1, *words, data=CUBE.read_bytes()).text, expected)
        out = self.folder / "out.obj"
        ended = self.done("refine", "-d", 1, "-o", out, data=CUBE.read_bytes())
        self.assertEqual((ended.text, ended.error, out.read_text()), ("", "", expected))

    def test_faults_of_standard_input(self) -> None:
        self.assertIn("drillolive: standard input: the file is empty.", self.refused("refine", "-d", 1))
        self.assertIn("standard input: line 1: unknown keyword", self.refused("refine", "-d", 1, data=b"x\n"))

    def test_a_broken_pipe_is_quiet(self) -> None:
        process = start("refine", "-d", 4, DOG, stdout=subprocess.PIPE, stderr=subprocess.PIPE)
        assert process.stdout is not None and process.stderr is not None
        self.assertEqual(process.stdout.read(2), b"v ")
        process.stdout.close()
        self.assertEqual(process.stderr.read(), b"")
        process.stderr.close()
        self.assertEqual(process.wait(PATIENCE), BROKEN_PIPE)


class Files(FolderTest):
    def test_a_file_is_replaced_whole(self) -> None:
        out = self.file("out.obj", "old")
        out.chmod(0o640)
        self.done("refine", "-d", 1, CUBE, "-o", out)
        self.assertEqual(out.read_text(), self.done("refine", "-d", 1, CUBE).text)
        self.assertEqual(stat.S_IMODE(out.stat().st_mode), 0o640)
        self.assertEqual(self.names(), ["out.obj"])

    def test_a_new_file_has_the_mode_of_other_new_files(self) -> None:
        other = self.file("other", "")
        self.done("refine", "-d", 1, CUBE, "-o", self.folder / "out.obj")
        self.assertEqual((self.folder / "out.obj").stat().st_mode, other.stat().st_mode)

    def test_a_file_may_be_read_and_written(self) -> None:
        mesh = self.file("mesh.obj", CUBE.read_bytes())
        self.done("refine", "-d", 1, mesh, "-o", mesh)
        self.assertEqual(mesh.read_text(), self.done("refine", "-d", 1, CUBE).text)

    def test_a_link_stays_a_link(self) -> None:
        target = self.file("target.obj", "old")
        link = self.folder / "link.obj"
        link.symlink_to(target)
        self.done("refine", "-d", 1, CUBE, "-o", link)
        self.assertTrue(link.is_symlink())
        self.assertEqual(target.read_text(), self.done("refine", "-d", 1, CUBE).text)

    def test_files_that_cannot_be_written(self) -> None:
        (self.folder / "folder").mkdir()
        cases = [
            ("/dev/full", "no space left on device. Free some space, or choose another folder with -o."),
            (self.folder / "nowhere" / "out.obj", "Make the folder first, or choose another one with -o."),
            (self.folder / "folder", "is a directory. Name a file in this folder with -o."),
            ("/proc/out.obj", "cannot be written: "),
        ]
        for path, expected in cases:
            with self.subTest(path):
                line = self.refused("refine", "-d", 1, CUBE, "-o", path)
                self.assertTrue(line.startswith(f"drillolive: {path}: cannot be written: "), line)
                self.assertIn(expected, line)
        self.assertEqual(self.names(), ["folder"])
        self.assertEqual(list((self.folder / "folder").iterdir()), [])

    @unittest.skipIf(os.geteuid() == 0, "the superuser may write in each folder")
    def test_a_folder_in_which_nobody_may_write(self) -> None:
        self.folder.chmod(0o500)
        self.addCleanup(self.folder.chmod, 0o700)
        line = self.refused("refine", "-d", 1, CUBE, "-o", self.folder / "out.obj")
        self.assertIn("Choose a folder with -o in which you may write.", line)

    def test_nothing_is_left_of_a_file_that_fails(self) -> None:
        out = self.file("out.obj", "old")

        def parts() -> object:
            yield b"new"
            raise OSError(28, "No space left on device")

        with self.assertRaises(CommandError):
            write_output(str(out), parts())  # type: ignore[arg-type]
        with self.assertRaises(KeyboardInterrupt), whole_file(str(out)) as path:
            path.write_bytes(b"new")
            raise KeyboardInterrupt
        self.assertEqual((self.names(), out.read_text()), (["out.obj"], "old"))


class Interrupts(FolderTest):
    def test_ctrl_c_leaves_no_file(self) -> None:
        words = ["refine", "-d", 6, DOG, "-o", self.folder / "out.obj"]
        process = start(*words, stderr=subprocess.PIPE)
        began = time.monotonic()
        while not self.names() and process.poll() is None and time.monotonic() - began < PATIENCE:
            time.sleep(0.01)
        # The process stands still while it is looked at, however busy the machine is.
        process.send_signal(signal.SIGSTOP)
        self.assertRegex(" ".join(self.names()), r"^\.out\.\S+$")
        process.send_signal(signal.SIGINT)
        process.send_signal(signal.SIGCONT)
        _, error = process.communicate(timeout=PATIENCE)
        self.assertEqual((process.returncode, error, self.names()), (INTERRUPTED, b"", []))

    def test_ctrl_c_while_the_file_is_made_leaves_none(self) -> None:
        out = self.file("out.obj", "old")
        for name in ["open", "close", "chmod"]:
            made = getattr(os, name)

            def interrupted(*words: object, made: Callable[..., object] = made) -> object:
                made(*words)
                raise KeyboardInterrupt

            with self.subTest(name), mock.patch(f"os.{name}", interrupted), self.assertRaises(KeyboardInterrupt):
                write_output(str(out), [b"new"])
            self.assertEqual((self.names(), out.read_text()), (["out.obj"], "old"))

    def test_ctrl_c_while_work_goes_on_in_a_thread(self) -> None:
        with Progress() as progress, self.assertRaises(KeyboardInterrupt):
            signal.signal(signal.SIGALRM, signal.default_int_handler)
            signal.setitimer(signal.ITIMER_REAL, 0.1)
            began = time.monotonic()
            progress.do("waiting", lambda: time.sleep(3))
        self.assertLess(time.monotonic() - began, 2)

    def test_work_gives_what_it_returns_and_raises(self) -> None:
        with Progress() as progress:
            self.assertEqual(progress.do("adding", lambda: 1 + 1), 2)
            with self.assertRaises(ZeroDivisionError):
                progress.do("dividing", lambda: 1 // 0)


class OnTerminal(FolderTest):
    def on_terminal(self, delay: float, *words: object, until: bytes | None = None) -> tuple[int, bytes]:
        """Runs the command with a terminal as standard error, and returns its status and what the terminal shows.

        The command gets Ctrl-C as soon as the terminal shows the bytes `until`.
        """
        outer, inner = pty.openpty()
        process = start(delay, *words, program=WITH_DELAY, stderr=inner, stdout=subprocess.DEVNULL)
        os.close(inner)
        shown = b""
        for part in iter(lambda: read_terminal(outer), b""):
            shown += part
            if until is not None and until in shown:
                process.send_signal(signal.SIGINT)
                until = None
        os.close(outer)
        return process.wait(PATIENCE), shown

    def test_ctrl_c_while_the_library_works(self) -> None:
        began = time.monotonic()
        words = ["refine", "-d", 6, "--exact", DOG, "-o", self.folder / "out.obj"]
        status, shown = self.on_terminal(0.01, *words, until=b"refining")
        self.assertEqual((status, self.names()), (INTERRUPTED, []))
        self.assertTrue(shown.endswith(b"\r\x1b[K"), shown)
        self.assertLess(time.monotonic() - began, PATIENCE)

    def test_a_line_of_progress_appears_and_goes(self) -> None:
        status, shown = self.on_terminal(0.1, "refine", "-d", 5, DOG, "-o", self.folder / "out.obj")
        self.assertEqual(status, 0)
        self.assertIn(f"\r\x1b[Kdrillolive: refining {DOG} to depth 5, 0 s".encode(), shown)
        self.assertIn(b"drillolive: writing", shown)
        self.assertTrue(shown.endswith(b"\r\x1b[K"), shown)

    def test_short_work_shows_none(self) -> None:
        status, shown = self.on_terminal(PATIENCE, "refine", "-d", 1, CUBE, "-o", self.folder / "out.obj")
        self.assertEqual((status, shown), (0, b""))

    def test_no_terminal_no_line(self) -> None:
        pipes = {"stdout": subprocess.DEVNULL, "stderr": subprocess.PIPE}
        process = start(0.01, "refine", "-d", 3, DOG, program=WITH_DELAY, **pipes)
        self.assertEqual(process.communicate(timeout=PATIENCE)[1], b"")

    def test_the_terminal_is_read_with_a_word(self) -> None:
        outer, inner = pty.openpty()
        process = start("levels", "-d", 0, stdin=inner, stdout=subprocess.PIPE, stderr=subprocess.PIPE)
        os.write(outer, CUBE.read_bytes() + b"\n\x04")
        text, error = process.communicate(timeout=PATIENCE)
        os.close(inner)
        os.close(outer)
        self.assertEqual(error, b"drillolive: reads a mesh from the terminal; Ctrl-D ends it\n")
        self.assertEqual(text.decode(), run_here("levels", "-d", 0, Path(CUBE)).text)


def read_terminal(handle: int) -> bytes:
    """Returns what a terminal shows next, and nothing where its other side is closed."""
    try:
        return os.read(handle, 4096)
    except OSError:
        return b""


if __name__ == "__main__":
    unittest.main()
