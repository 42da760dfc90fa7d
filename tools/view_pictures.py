#!/usr/bin/env python3
"""Makes the pictures of `drillolive view` that the documents show: docs/pictures/view_*.png.

    tools/view_pictures.py

It takes Debian's chromium, and the library: the one of build/lib, or the one that DRILLOLIVE_LIBRARY names. The last
line is `made N pictures`, and the exit status 0.
"""

from __future__ import annotations

import sys
import tempfile
from pathlib import Path
from typing import NamedTuple

from paths import TOP

sys.path[:0] = [str(TOP / "bindings/python"), str(TOP / "bindings/python/tests")]

from browser import CHROMIUM, WEBGL, Browser, Tab  # noqa: E402

from drillolive.command.obj_file import read_obj_file  # noqa: E402
from drillolive.view.page import page_of  # noqa: E402
from drillolive.view.scene import Request, scene_of  # noqa: E402

PICTURES = TOP / "docs/pictures"
MOST_BYTES = 250_000


class Picture(NamedTuple):
    """A picture: its name, the example that it shows, the depth, the axis that is up, and the state of the page."""

    name: str
    mesh: str
    depth: int
    up: str
    state: str
    size: tuple[int, int] = (1200, 760)


SHOWN = [
    Picture(
        "view_creased_cube", "creased_cube", 3, "z",
        "level=2&layers=cage edges creases boundary seams holes special&shading=smooth&point=11&theme=light",
    ),
    Picture("view_dog_sparse", "dog", 2, "z", "level=2&surface=sparse&layers=edges creases&shading=flat&theme=light"),
    Picture(
        "view_texture", "unfolded_cube", 3, "z",
        "level=2&layers=cage edges creases boundary seams texture&point=24&theme=dark", (1320, 760),
    ),
]  # fmt: skip


def make(picture: Picture, browser: Browser, folder: str) -> None:
    """Writes a picture. SystemExit: the page has a problem, or the picture too many bytes."""
    file = read_obj_file((TOP / f"examples/{picture.mesh}.obj").read_bytes())
    page = Path(folder) / f"{picture.name}.html"
    request = Request(f"{picture.mesh}.obj", picture.depth, "boundaries", picture.up)
    page.write_text(page_of(scene_of(file, request)), "utf-8")
    tab = Tab(browser, page, picture.state.replace(" ", "+"), picture.size)
    tab.run("await wait(600)")
    data = tab.screenshot()
    tab.close()
    if tab.problems or len(data) > MOST_BYTES:
        sys.exit(f"{picture.name} has {len(data)} bytes and these problems: {tab.problems}")
    (PICTURES / f"{picture.name}.png").write_bytes(data)


def main() -> None:
    if not CHROMIUM:
        sys.exit("chromium is missing: apt-get install chromium")
    browser = Browser(*WEBGL)
    with tempfile.TemporaryDirectory() as folder:
        for picture in SHOWN:
            make(picture, browser, folder)
    browser.close()
    print(f"made {len(SHOWN)} pictures")


if __name__ == "__main__":
    main()
