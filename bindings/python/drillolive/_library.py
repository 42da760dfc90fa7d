"""Finds and loads the shared library."""

from __future__ import annotations

import os
from ctypes import CDLL
from ctypes.util import find_library
from functools import lru_cache
from pathlib import Path
from typing import Iterator

from ._interface import declare
from .errors import LibraryNotFound

# The version of the library that this package calls: DRILLOLIVE_VERSION of include/drillolive.h.
VERSION = "0.1.0"

VARIABLE = "DRILLOLIVE_LIBRARY"
FILE_NAME = "libdrillolive.so"

ADVICE = (
    "Get it in one of three ways: run `./far --install PREFIX` in a checkout; build it there and run "
    f"`pip install ./bindings/python`; or let the variable {VARIABLE} name the file {FILE_NAME}."
)


def candidates(package: Path) -> Iterator[Path]:
    """Gives the places of the library beside a package folder: inside it, in an installed prefix, and in a checkout."""
    yield package / FILE_NAME
    parents = package.parents
    if [folder.name for folder in parents[:3]] == ["python", "drillolive", "share"]:
        yield parents[3] / "lib" / FILE_NAME
    if [folder.name for folder in parents[:2]] == ["python", "bindings"]:
        yield parents[2] / "build" / "lib" / FILE_NAME


def library_path() -> str:
    """Returns the path, or the name, of the library. LibraryNotFound: it is nowhere."""
    named = os.environ.get(VARIABLE)
    if named:
        return named
    for path in candidates(Path(__file__).resolve().parent):
        if path.is_file():
            return str(path)
    installed = find_library("drillolive")
    if installed:
        return installed
    raise LibraryNotFound(f"The library {FILE_NAME} is not found. {ADVICE}")


def load(path: str) -> CDLL:
    """Returns the library at a path. LibraryNotFound: it cannot be loaded, or has another version or other calls."""
    try:
        loaded = CDLL(path)
        declare(loaded)
    except OSError as fault:
        raise LibraryNotFound(f"The library {path} cannot be loaded: {fault}. {ADVICE}") from None
    except AttributeError as fault:
        raise LibraryNotFound(f"The library {path} is another one: {fault}. {ADVICE}") from None
    version = loaded.drillolive_version().decode()
    if version != VERSION:
        raise LibraryNotFound(f"The library {path} has version {version}, and this package calls {VERSION}. {ADVICE}")
    return loaded


@lru_cache(maxsize=None)
def library() -> CDLL:
    """Returns the library, which is loaded once. LibraryNotFound: it is not found, or is refused."""
    return load(library_path())
