"""Writes whole files or none."""

from __future__ import annotations

import argparse
import errno
import os
import secrets
import sys
from collections.abc import Iterable, Iterator
from contextlib import contextmanager
from pathlib import Path

from .failure import CommandError, reason_of

STANDARD = "-"  # the name of standard input and of standard output

ADVICE = {
    errno.ENOSPC: "Free some space, or choose another folder with -o.",
    errno.EDQUOT: "Free some space, or choose another folder with -o.",
    errno.ENOENT: "Make the folder first, or choose another one with -o.",
    errno.ENOTDIR: "Make the folder first, or choose another one with -o.",
    errno.EISDIR: "Name a file in this folder with -o.",
}
ADVICE_ON_LEAVE = "Choose a folder with -o in which you may write."


def write_output(path: str | None, parts: Iterable[bytes]) -> None:
    """Writes parts to a file, whole or not at all, or to standard output where the path is `-` or None.

    Raises CommandError where the file cannot be written, and BrokenPipeError where nobody reads standard output.
    """
    if path is None or path == STANDARD:
        with _told("standard output"):
            sys.stdout.buffer.writelines(parts)
            sys.stdout.buffer.flush()
        return
    with whole_file(path) as file, file.open("wb") as stream:
        stream.writelines(parts)


def write_result(arguments: argparse.Namespace, parts: Iterable[bytes]) -> None:
    """Writes what a command gives where `-o` says. A terminal that gets it shows no line of progress beside it."""
    if arguments.output in (None, STANDARD) and sys.stdout.isatty():
        arguments.progress.end()
    arguments.progress.say("writing")
    write_output(arguments.output, parts)


@contextmanager
def whole_file(path: str) -> Iterator[Path]:
    """Gives a temporary file beside the target, which takes its place where the block ends without an exception.

    Raises CommandError where the target cannot be written. A target that is no regular file, such as a named pipe or a
    device, is given itself.
    """
    target = Path(os.path.realpath(path))
    with _told(path):
        if target.is_dir():
            raise IsADirectoryError(errno.EISDIR, os.strerror(errno.EISDIR))
        if target.exists() and not target.is_file():
            yield target
            return
        # The name is known before the file is there, so that Ctrl-C at any moment leaves none.
        file = target.with_name(f".{target.stem}.{secrets.token_urlsafe(6)}{target.suffix}")
        try:
            _make_empty(file, target)
            yield file
            os.replace(file, target)
        finally:
            file.unlink(missing_ok=True)


def _make_empty(file: Path, target: Path) -> None:
    """Makes an empty file, with the mode that the target has or would get. Raises FileExistsError where there is one."""
    mode = target.stat().st_mode & 0o777 if target.exists() else None
    os.close(os.open(file, os.O_WRONLY | os.O_CREAT | os.O_EXCL, 0o666 if mode is None else mode))
    if mode is not None:
        os.chmod(file, mode)


@contextmanager
def _told(name: str) -> Iterator[None]:
    """Turns what the system refuses into a CommandError with the name of the file."""
    try:
        yield
    except BrokenPipeError:
        raise
    except OSError as error:
        advice = ADVICE.get(error.errno or 0, ADVICE_ON_LEAVE)
        raise CommandError(f"{name}: cannot be written: {reason_of(error)}", advice) from error
