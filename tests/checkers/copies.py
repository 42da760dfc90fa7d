"""Small repositories for the tests of the checkers, and runs of the scripts of tools/ on them."""

import contextlib
import importlib
import io
import shutil
import subprocess
import sys
import tempfile
from concurrent.futures import ThreadPoolExecutor
from contextlib import contextmanager
from pathlib import Path
from typing import Callable, Dict, Iterator, List, Sequence, Tuple, TypeVar
from unittest.mock import patch

from paths import TOP

Plant = TypeVar("Plant")
Outcome = TypeVar("Outcome")


@contextmanager
def repository(files: Dict[str, str]) -> Iterator[Path]:
    """A folder with some files, which is removed afterwards."""
    with tempfile.TemporaryDirectory(prefix="checkers-") as folder:
        top = Path(folder)
        write(top, files)
        yield top


def write(top: Path, files: Dict[str, str]) -> None:
    """Writes files with these texts below a folder."""
    for name, text in files.items():
        (top / name).parent.mkdir(parents=True, exist_ok=True)
        (top / name).write_text(text, encoding="utf-8")


def copy(top: Path, *patterns: str) -> None:
    """Copies the files of some patterns from the repository."""
    for pattern in patterns:
        for path in TOP.glob(pattern):
            if path.is_file() and "__pycache__" not in path.parts:
                to = top / path.relative_to(TOP)
                to.parent.mkdir(parents=True, exist_ok=True)
                shutil.copy2(path, to)


def in_parallel(work: Callable[[Plant], Outcome], plants: Sequence[Plant]) -> List[Tuple[Plant, Outcome]]:
    """Each plant with what the work returns for it. Several are worked on at a time."""
    with ThreadPoolExecutor() as pool:
        return list(zip(plants, pool.map(work, plants)))


def run(script: Path, *options: str) -> Tuple[int, List[str]]:
    """The exit status of a script, and the lines that it prints."""
    done = subprocess.run([sys.executable, str(script), *options], stdout=subprocess.PIPE, check=False)
    return done.returncode, done.stdout.decode("utf-8").splitlines()


def check(name: str, top: Path, *options: str) -> Tuple[int, List[str]]:
    """The exit status of a script of tools/ on a repository, and the lines that it prints. It runs in this process."""
    words = [name, "--top", str(top), *options]
    with patch.object(sys, "argv", words), contextlib.redirect_stdout(io.StringIO()) as written:
        status = importlib.import_module(name).main()
    return status, written.getvalue().splitlines()
