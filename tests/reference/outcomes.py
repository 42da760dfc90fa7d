"""How commands end: their status and what they write, through pipes and on terminals of their own."""

from __future__ import annotations

import os
import pty
import shutil
import signal
import subprocess
import termios
import tty
from contextlib import contextmanager
from pathlib import Path
from typing import BinaryIO, Iterator, NamedTuple, Optional, Sequence, Tuple, Union

SECONDS = 1200
END_OF_INPUT = b"\x04"


# The status of a command, None where it does not end in time, and what it writes on both outputs.
Outcome = Tuple[Optional[int], bytes, bytes]
Words = Sequence[Union[str, bytes, Path]]


class Answer(NamedTuple):
    """How a program ends, and what it writes on standard output."""

    status: int
    text: bytes


def answer_of(program: Path, words: Words, data: bytes) -> Answer:
    done = subprocess.run([program, *words], input=data, capture_output=True)
    return Answer(done.returncode, done.stdout)


def outcome(
    program: str | Path,
    words: Words,
    data: bytes = b"",
    how: str = 'exec "$@"',
    path: str | None = None,
    folder: str | Path = "/",
) -> Outcome:
    """The status with which a program ends, None where it does not end in time, and what it writes on both outputs."""
    names = os.environ if path is None else {**os.environ, "PATH": path}
    command = [shutil.which("bash"), "-c", how, "bash", program, *words]
    try:
        done = subprocess.run(command, input=data, capture_output=True, env=names, cwd=folder, timeout=SECONDS)
    except subprocess.TimeoutExpired:
        return None, b"", b""
    return done.returncode, done.stdout, done.stderr


def shown(ended: Outcome) -> str:
    """An outcome in a line, cut where it is long."""
    return "status {}, output {}, error {}".format(*(repr(part)[:200] for part in ended))


@contextmanager
def terminal(raw: bool) -> Iterator[tuple[int, int]]:
    """Gives both ends of a terminal: that of the user, and that of the command. A raw one changes no byte."""
    user, command = pty.openpty()
    if raw:
        tty.setraw(command)
    else:
        mode = termios.tcgetattr(command)
        mode[3] &= ~termios.ECHO
        termios.tcsetattr(command, termios.TCSANOW, mode)
    try:
        yield user, command
    finally:
        os.close(user)


def read_to_end(user: int) -> bytes:
    """Reads what was written on a terminal, up to where no command has it open any more."""
    written = b""
    while True:
        try:
            piece = os.read(user, 65536)
        except OSError:  # a terminal that nobody has open ends so
            return written
        if not piece:
            return written
        written += piece


def outcome_on_terminal(command: Words, source: bytes | BinaryIO, folder: Path) -> Outcome:
    """The status of a command in a folder, and what it writes on standard output and on standard error, a terminal.

    `source` is a file for its standard input, or bytes that are typed on a terminal there.
    """
    with terminal(raw=True) as (user, error), terminal(raw=False) as (keys, typed):
        given = typed if isinstance(source, bytes) else source
        done = subprocess.Popen(command, stdin=given, stdout=subprocess.PIPE, stderr=error, cwd=folder)
        os.close(error)
        os.close(typed)
        if isinstance(source, bytes):
            os.write(keys, source + END_OF_INPUT)
        written = done.communicate()[0]
        return done.returncode, written, read_to_end(user)


def hear_interrupts() -> None:
    """Has a command end at an interrupt, also where these tests were started with interrupts ignored, as by nohup."""
    signal.signal(signal.SIGINT, signal.SIG_DFL)


def outcome_of_interrupt(command: Words, first_input: bytes) -> tuple[int, bytes]:
    """The status of a command that is interrupted as Ctrl-C does it, and what it writes on standard error, a terminal.

    The interrupt comes when the command has answered its first input, and waits for more.
    """
    with terminal(raw=True) as (user, error):
        how = {"stdin": subprocess.PIPE, "stdout": subprocess.PIPE, "stderr": error, "start_new_session": True}
        how["preexec_fn"] = hear_interrupts
        with subprocess.Popen(command, **how) as started:
            os.close(error)
            started.stdin.write(first_input)
            started.stdin.flush()
            started.stdout.readline()
            os.killpg(started.pid, signal.SIGINT)
            return started.wait(SECONDS), read_to_end(user)
