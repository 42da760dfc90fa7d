"""Finds and imports the Python package drillolive, which calls the library."""

from __future__ import annotations

import importlib.util
import sys
from dataclasses import dataclass
from functools import lru_cache
from pathlib import Path
from types import ModuleType
from typing import Iterator

NAME = "drillolive"

# Where `./far --install PREFIX` puts the package, below PREFIX.
INSTALLED = Path("share") / "drillolive" / "python"

# Where the zip of the add-on has its copy of the package, and where a checkout has it, beside the add-on's folder.
CARRIED = Path("carried")
IN_CHECKOUT = Path("..") / ".." / "python"

ADD_ON = Path(__file__).resolve().parent

ADVICE = (
    "Install the add-on from the zip that build_addon.py makes, or name in its preferences the folder of "
    "`./far --install FOLDER`."
)


class PackageNotFound(Exception):
    """The package drillolive, or its library, is not found."""


@dataclass(frozen=True)
class Found:
    """The package drillolive, or None where it is not found. `line` says where it is, or why it is not found."""

    module: ModuleType | None
    line: str


def places(folder: str, add_on: Path) -> Iterator[Path | None]:
    """Gives the folders from which the package may be imported, the best first. None stands for an installed package.

    `folder` is the one of the preferences. Where it is not empty it is the only place.
    """
    if folder:
        yield Path(folder) / INSTALLED
        return
    if (add_on / CARRIED / NAME).is_dir():
        yield add_on / CARRIED
    yield None
    yield (add_on / IN_CHECKOUT).resolve()


def forget() -> None:
    """Forgets a package that was imported from another place."""
    for name in [name for name in sys.modules if name == NAME or name.startswith(f"{NAME}.")]:
        del sys.modules[name]


def import_from(folder: Path | None) -> ModuleType | None:
    """Imports the package from a folder, or the installed one, and loads its library.

    It returns None where the package is not there. ImportError: its library is not found.
    """
    if folder is not None and not (folder / NAME / "__init__.py").is_file():
        return None
    forget()
    before = list(sys.path)
    sys.path[:0] = [] if folder is None else [str(folder)]
    try:
        if importlib.util.find_spec(NAME) is None:
            return None
        module = importlib.import_module(NAME)
        getattr(module, "__version__")  # the library is loaded for it
        return module
    finally:
        sys.path[:] = before


def search(folder: str, add_on: Path) -> Found:
    """Imports the package from the first place that has it and its library."""
    refusals = []
    for place in places(folder, add_on):
        try:
            module = import_from(place)
        except ImportError as error:
            refusals.append(str(error))
            continue
        if module is not None:
            return Found(module, f"Drillolive {module.__version__} of {Path(module.__file__).parent}")
    if refusals:
        return Found(None, refusals[0])
    where = f" in {Path(folder) / INSTALLED}" if folder else ""
    return Found(None, f"The package drillolive is not found{where}. {ADVICE}")


@lru_cache(maxsize=1)
def look(folder: str) -> Found:
    """Returns what is found for the folder of the preferences. It looks once, since a panel asks often."""
    return search(folder, ADD_ON)


def load(folder: str) -> ModuleType:
    """Returns the package. It looks again where nothing was found. PackageNotFound: it is nowhere."""
    if look(folder).module is None:
        look.cache_clear()
    found = look(folder)
    if found.module is None:
        raise PackageNotFound(found.line)
    return found.module
