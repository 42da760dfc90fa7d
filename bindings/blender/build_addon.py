#!/usr/bin/env python3
"""Makes the zip of the Blender add-on: the add-on, the Python package drillolive, and the library.

    bindings/blender/build_addon.py
    bindings/blender/build_addon.py -o /tmp/drillolive_blender.zip

Blender installs it by Edit > Preferences > Add-ons > Install. The library is $DRILLOLIVE_LIBRARY, or
build/lib/libdrillolive.so of this checkout. The same files make the same zip, byte for byte. The last line is the path
of the zip, and the exit status 0. The status is 1 where the library is not built.
"""

from __future__ import annotations

import argparse
import sys
import zipfile
from pathlib import Path

HERE = Path(__file__).resolve().parent
TOP = HERE.parents[1]
ADD_ON = "drillolive_blender"

# The folders of the modules below, behind those of Python: the add-on has a module `operator`, as Python has.
sys.path += [str(HERE.parent / "python"), str(HERE / ADD_ON)]

import build_wheel  # noqa: E402
from package import CARRIED  # noqa: E402


def add_on_files() -> dict[str, bytes]:
    """Returns the files of the add-on, by their names in the zip."""
    return {f"{ADD_ON}/{path.name}": path.read_bytes() for path in sorted((HERE / ADD_ON).glob("*.py"))}


def carried_files() -> dict[str, bytes]:
    """Returns the package, its library and the licences, by their names in the zip. SystemExit: it is not built."""
    library = {f"{build_wheel.NAME}/{build_wheel.LIBRARY}": build_wheel.library().read_bytes()}
    files = {**build_wheel.package_files(), **library}
    licenses = {f"{ADD_ON}/{name}": (TOP / name).read_bytes() for name in build_wheel.LICENSES}
    return {**{f"{ADD_ON}/{CARRIED.as_posix()}/{name}": data for name, data in files.items()}, **licenses}


def write_zip(target: Path) -> None:
    """Writes the zip. SystemExit: the library is not built. OSError: the file cannot be written."""
    files = {**add_on_files(), **carried_files()}
    with zipfile.ZipFile(target, "w", zipfile.ZIP_DEFLATED) as made:
        for name, data in files.items():
            entry = zipfile.ZipInfo(name, build_wheel.EARLIEST)
            entry.compress_type = zipfile.ZIP_DEFLATED
            entry.external_attr = 0o644 << 16
            made.writestr(entry, data)


def main() -> None:
    """Reads the command line, and makes the zip."""
    parser = argparse.ArgumentParser(description="Makes the zip of the Blender add-on.")
    default = TOP / "build" / f"{ADD_ON}-{build_wheel.version()}.zip"
    parser.add_argument("-o", "--output", type=Path, default=default, help="the path of the zip")
    target = parser.parse_args().output
    target.parent.mkdir(parents=True, exist_ok=True)
    write_zip(target)
    print(target)


if __name__ == "__main__":
    main()
