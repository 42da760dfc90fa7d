#!/usr/bin/env python3
"""Makes the pages of docs/reference from the sources.

    tools/make_reference.py
    tools/make_reference.py --check

It writes each page that is new or has changed, and removes each file there that it does not make. With --check it changes
nothing: it prints a line for each page that is missing or stale and for each foreign file, and then ends with status 1.
"""

import argparse
import sys
from pathlib import Path
from typing import Dict, List

from reference_pages.site import all_pages

FOLDER = "docs/reference"


def faults_of(folder: Path, pages: Dict[str, str]) -> List[str]:
    """A line for each file of the folder that is not as the sources make it."""
    kept = {path.relative_to(folder).as_posix() for path in folder.glob("**/*") if path.is_file()}
    faults = {name: "is missing" for name in pages if name not in kept}
    faults.update({name: "is foreign" for name in kept if name not in pages})
    for name in kept & set(pages):
        if (folder / name).read_bytes() != pages[name].encode("utf-8"):
            faults[name] = "is stale"
    return [f"{FOLDER}/{name} {fault}" for name, fault in sorted(faults.items())]


def write_pages(folder: Path, pages: Dict[str, str]) -> int:
    """Writes the pages that differ and removes other files. Returns the number of files that it changed."""
    faults = faults_of(folder, pages)
    for fault in faults:
        name = fault[len(FOLDER) + 1 :].split(" ")[0]
        if name in pages:
            (folder / name).parent.mkdir(parents=True, exist_ok=True)
            (folder / name).write_bytes(pages[name].encode("utf-8"))
        else:
            (folder / name).unlink()
    return len(faults)


def main() -> int:
    parser = argparse.ArgumentParser(description="Makes the pages of docs/reference from the sources.")
    parser.add_argument("--check", action="store_true", help="change nothing, and end with status 1 where a page is not as the sources are")
    parser.add_argument("--top", type=Path, default=Path(__file__).resolve().parent.parent, help="the repository")
    options = parser.parse_args()
    top = options.top.resolve()
    pages = all_pages(top)
    if not options.check:
        print(f"{len(pages)} pages, {write_pages(top / FOLDER, pages)} changed")
        return 0
    faults = faults_of(top / FOLDER, pages)
    print("\n".join(faults) if faults else f"{len(pages)} pages are as the sources are")
    return 1 if faults else 0


if __name__ == "__main__":
    sys.exit(main())
