"""Copies of the repository: the files that git tracks, as they are in the working tree, with their times."""

from __future__ import annotations

import shutil
import subprocess
from pathlib import Path
from typing import Iterable

from paths import PROGRAM, TOP


def tracked_files() -> list[str]:
    """The paths of the tracked files below the top that are there."""
    listed = subprocess.run(["git", "ls-files", "-z"], cwd=TOP, stdout=subprocess.PIPE, check=True).stdout
    names = listed.decode("utf-8", "surrogateescape").split("\0")[:-1]
    return [name for name in names if (TOP / name).is_file()]


def copy_files(names: Iterable[str], to: Path) -> None:
    """Copies the files of the top with these names to a folder, and keeps their times and their modes."""
    held = list(names)
    for folder in {(to / name).parent for name in held}:
        folder.mkdir(parents=True, exist_ok=True)
    for name in held:
        shutil.copy2(TOP / name, to / name)


def put_program(program: Path, to: Path) -> None:
    """Puts a program, with its time, where the launcher of a copy looks for the proved one."""
    (to / PROGRAM).parent.mkdir(parents=True, exist_ok=True)
    shutil.copy2(program, to / PROGRAM)
