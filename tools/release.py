#!/usr/bin/env python3
"""Makes a tar of the program, of the library for C, and of the Python package, for machines without the toolchain.

    tools/release.py FOLDER

The gate, `.ci/run`, runs first, over sources that are all committed. Where it passes, `./far --install` installs the proved
program and library into a folder of their own, and FOLDER gets `drillolive-VERSION-x86_64-linux.tar.xz` of that. The tar has
one file more, `share/drillolive/release`: the version, the commit and the hash of the sources, the toolchain, the last line of
the gate, and the SHA-256 of each file. Its file for pkg-config finds the library wherever the tar is unpacked. The same commit
makes the same tar of the same files.

The exit status is 0 where the tar was written and its program ran, and 1 where anything failed, which a line says.
"""

from __future__ import annotations

import argparse
import hashlib
import lzma
import subprocess
import sys
import tarfile
import tempfile
from pathlib import Path
from typing import Any

from paths import TOP

FACTS = "share/drillolive/release"
MANIFEST = "share/drillolive/manifest"
DESCRIPTION = "lib/pkgconfig/drillolive.pc"


class Failed(Exception):
    """What failed."""


def said_by(words: list[str], **options: Any) -> str:
    """What a command prints. Its status has to be 0."""
    done = subprocess.run(words, cwd=TOP, stdout=subprocess.PIPE, universal_newlines=True, **options)
    if done.returncode != 0:
        raise Failed(f"{' '.join(map(str, words))} ended with status {done.returncode}")
    return done.stdout.strip()


def run_gate() -> str:
    """Runs the gate, shows what it says, and returns its last line."""
    last = ""
    with subprocess.Popen([str(TOP / ".ci/run")], cwd=TOP, stdout=subprocess.PIPE, universal_newlines=True) as gate:
        for line in gate.stdout:
            print(line, end="", flush=True)
            last = line.strip() or last
    if gate.returncode != 0:
        raise Failed(f"the gate ended with status {gate.returncode}")
    return last


def version_in(header: Path) -> str:
    """The version that the header of the library says."""
    for line in header.read_text(encoding="utf-8").splitlines():
        if line.startswith("#define DRILLOLIVE_VERSION "):
            return line.split('"')[1]
    raise Failed(f"{header} has no version")


def facts_of(gate_line: str) -> list[str]:
    """What the release says of its sources."""
    return [
        f"version {version_in(TOP / 'include/drillolive.h')}",
        f"commit {said_by(['git', 'rev-parse', 'HEAD'])}",
        f"sources {said_by(['git', 'rev-parse', 'HEAD^{tree}'])}",
        f"toolchain {said_by(['rt', 'version'])}",
        f"gate {gate_line}",
    ]


def make_movable(prefix: Path) -> None:
    """Has pkg-config find the library from where its file is, and not where it was installed first."""
    path = prefix / DESCRIPTION
    lines = path.read_text(encoding="utf-8").replace('"', "").splitlines()
    moved = ["prefix=${pcfiledir}/../.." if line.startswith("prefix=") else line for line in lines]
    path.write_text("\n".join(moved) + "\n", encoding="utf-8")


def write_facts(prefix: Path, facts: list[str]) -> None:
    """Adds the file of the release to what was installed, also to the list that an uninstall removes."""
    with (prefix / MANIFEST).open("a", encoding="utf-8") as listed:
        listed.write(f"{FACTS}\n")
    files = sorted(path for path in prefix.rglob("*") if path.is_file())
    sums = [f"sha256 {hashlib.sha256(path.read_bytes()).hexdigest()} {path.relative_to(prefix)}" for path in files]
    path = prefix / FACTS
    path.parent.mkdir(parents=True, exist_ok=True)
    path.write_text("\n".join([*facts, *sums]) + "\n", encoding="utf-8")


def pack(prefix: Path, name: str, seconds: int, out: Path) -> None:
    """Writes the tar of a folder, in an order of its own, with one date and without owners."""
    with lzma.open(out, "wb", preset=9) as packed, tarfile.open(fileobj=packed, mode="w", format=tarfile.GNU_FORMAT) as tar:
        for path in sorted(prefix.rglob("*")):
            entry = tar.gettarinfo(path, f"{name}/{path.relative_to(prefix)}")
            entry.mtime, entry.uid, entry.gid, entry.uname, entry.gname = seconds, 0, 0, "", ""
            if path.is_file():
                with path.open("rb") as file:
                    tar.addfile(entry, file)
            else:
                tar.addfile(entry)


def try_program(archive: Path, name: str) -> None:
    """Unpacks the tar elsewhere, and runs its program on the cube."""
    with tempfile.TemporaryDirectory() as folder:
        with tarfile.open(archive) as tar:
            tar.extractall(folder)
        with (TOP / "examples/cube.obj").open("rb") as cube:
            done = subprocess.run([f"{folder}/{name}/bin/far", "levels", "depth=0"], stdin=cube, stdout=subprocess.PIPE)
        if done.returncode != 0 or not done.stdout.startswith(b"level 0 points 8 "):
            raise Failed("the program of the tar does not run")


def make_release(prefix: Path, facts: list[str], seconds: int, folder: Path) -> Path:
    """Packs what was installed with the facts of the release, tries it, and returns the path of the tar."""
    name = f"drillolive-{facts[0].split()[1]}-x86_64-linux"
    make_movable(prefix)
    write_facts(prefix, facts)
    folder.mkdir(parents=True, exist_ok=True)
    archive = folder / f"{name}.tar.xz"
    pack(prefix, name, seconds, archive)
    try_program(archive, name)
    return archive


def main() -> int:
    parser = argparse.ArgumentParser(description="Makes a tar of the proved program and library.")
    parser.add_argument("folder", type=Path, help="where the tar goes")
    given = parser.parse_args()
    try:
        if said_by(["git", "status", "--porcelain"]):
            raise Failed("there are changes that are not committed: the hash of the sources would not be theirs")
        facts = facts_of(run_gate())
        seconds = int(said_by(["git", "log", "-1", "--format=%ct"]))
        with tempfile.TemporaryDirectory() as folder:
            said_by([str(TOP / "far"), "--install", folder])
            archive = make_release(Path(folder), facts, seconds, given.folder)
    except (Failed, OSError) as fault:
        print(f"tools/release.py: {fault}", file=sys.stderr)
        return 1
    print(f"{archive}: {archive.stat().st_size} bytes")
    return 0


if __name__ == "__main__":
    sys.exit(main())
