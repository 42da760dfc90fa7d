"""Builds the wheel of the package drillolive, as PEP 517 describes it, without any other package.

The wheel has the package and the shared library: $DRILLOLIVE_LIBRARY, or build/lib/libdrillolive.so of this checkout.
Its version is that of include/drillolive.h. The same files make the same wheel, byte for byte.
"""

from __future__ import annotations

import base64
import hashlib
import os
import re
import zipfile
from pathlib import Path
from typing import Any, Mapping, Optional

Settings = Optional[Mapping[str, Any]]

HERE = Path(__file__).resolve().parent
TOP = HERE.parents[1]
PACKAGE = HERE / "drillolive"
NAME = "drillolive"
TAG = "py3-none-linux_x86_64"
LIBRARY = "libdrillolive.so"
LICENSES = ("LICENSE", "LICENSE-APACHE", "LICENSE-MIT")
EARLIEST = (1980, 1, 1, 0, 0, 0)  # the date of each file in the wheel

METADATA = """Metadata-Version: 2.1
Name: {name}
Version: {version}
Summary: Exact Catmull-Clark refinement of polygon meshes, with semi-sharp creases
License: MIT OR Apache-2.0
Requires-Python: >=3.9
Provides-Extra: fast
Requires-Dist: numpy; extra == "fast"
Requires-Dist: scipy; extra == "fast"
Platform: linux_x86_64
"""
WHEEL = f"Wheel-Version: 1.0\nGenerator: {NAME}\nRoot-Is-Purelib: false\nTag: {TAG}\n"
SCRIPTS = f"[console_scripts]\n{NAME} = {NAME}.command.main:main\n"


class UnsupportedOperation(Exception):
    """This backend does not make what it is asked for."""


def version() -> str:
    """Returns the version of the library. SystemExit: the header is not there."""
    header = TOP / "include" / "drillolive.h"
    found = re.search(r'^#define DRILLOLIVE_VERSION "(.*)"$', header.read_text(), re.M) if header.is_file() else None
    if not found:
        raise SystemExit(f"The package is built in a checkout of drillolive: {header} is missing.")
    return found[1]


def library() -> Path:
    """Returns the path of the shared library. SystemExit: it is not built."""
    named = os.environ.get("DRILLOLIVE_LIBRARY")
    path = Path(named) if named else TOP / "build" / "lib" / LIBRARY
    if not path.is_file():
        raise SystemExit(f"The library {path} is not built: run `./far --install PREFIX` in {TOP}, and try again.")
    return path


def package_files() -> dict[str, bytes]:
    """Returns the files of the package, by their names in the wheel."""
    paths = [path for path in PACKAGE.rglob("*") if path.is_file() and "__pycache__" not in path.parts]
    return {path.relative_to(HERE).as_posix(): path.read_bytes() for path in sorted(paths) if path.name != LIBRARY}


def info_files() -> dict[str, bytes]:
    """Returns the files that describe the wheel, by their names in it."""
    folder = f"{NAME}-{version()}.dist-info"
    texts = {
        "METADATA": METADATA.format(name=NAME, version=version()),
        "WHEEL": WHEEL,
        "entry_points.txt": SCRIPTS,
    }
    licenses = {f"licenses/{name}": (TOP / name).read_bytes() for name in LICENSES}
    described = {**{name: text.encode() for name, text in texts.items()}, **licenses}
    return {f"{folder}/{name}": data for name, data in described.items()}


def record_line(name: str, data: bytes) -> str:
    """Returns the line of the record on a file: its name, its hash and its size."""
    digest = base64.urlsafe_b64encode(hashlib.sha256(data).digest()).rstrip(b"=").decode()
    return f"{name},sha256={digest},{len(data)}\n"


def write_wheel(folder: str, files: Mapping[str, bytes]) -> str:
    """Writes a wheel of these files and their record, and returns its name."""
    name, record = f"{NAME}-{version()}-{TAG}.whl", f"{NAME}-{version()}.dist-info/RECORD"
    lines = "".join(record_line(*item) for item in files.items()) + f"{record},,\n"
    with zipfile.ZipFile(Path(folder) / name, "w", zipfile.ZIP_DEFLATED) as wheel:
        for path, data in {**files, record: lines.encode()}.items():
            entry = zipfile.ZipInfo(path, EARLIEST)
            entry.compress_type = zipfile.ZIP_DEFLATED
            entry.external_attr = (0o755 if path.endswith(".so") else 0o644) << 16
            wheel.writestr(entry, data)
    return name


# ---- The hooks of PEP 517 and PEP 660 ----


def build_wheel(wheel_directory: str, config_settings: Settings = None, metadata_directory: str | None = None) -> str:
    """Writes the wheel, and returns its name. SystemExit: the library is not built."""
    carried = {f"{NAME}/{LIBRARY}": library().read_bytes()}
    return write_wheel(wheel_directory, {**package_files(), **carried, **info_files()})


def build_editable(wheel_directory: str, config_settings: Settings = None, metadata_directory: str | None = None) -> str:
    """Writes a wheel that leads to this checkout, and returns its name. SystemExit: the library is not built."""
    library()
    return write_wheel(wheel_directory, {f"{NAME}.pth": f"{HERE}\n".encode(), **info_files()})


def build_sdist(sdist_directory: str, config_settings: Settings = None) -> str:
    """Makes nothing. UnsupportedOperation: the library is proved and built in a checkout alone."""
    raise UnsupportedOperation("a source distribution is not made: build the wheel in a checkout")
