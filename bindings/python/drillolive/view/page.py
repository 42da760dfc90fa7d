"""Puts the page together: one file that needs no other."""

from __future__ import annotations

import json
import re
from collections.abc import Mapping
from html import escape
from pathlib import Path
from typing import Any

SOURCES = Path(__file__).resolve().parent

# The scripts in the order in which they run. Each adds its part to the one global name, `drillolive`.
SCRIPTS = (
    "unpacking.js", "fractions.js", "topology.js", "sparse.js", "scene.js", "shapes.js", "camera.js", "state.js",
    "palette.js", "layers.js", "draw_webgl.js", "draw_canvas.js", "pace.js", "draw.js", "pick.js", "charts.js",
    "panels.js", "point_panel.js", "input.js", "main.js",
)  # fmt: skip
PLACE = re.compile(r"<!-- place: (\w+) -->")


def page_of(scene: Mapping[str, Any]) -> str:
    """Returns the text of the page that shows a scene."""
    parts = {
        "title": escape(f"{scene['name']} - drillolive"),
        "style": f"<style>\n{source('style.css')}</style>",
        "scene": f'<script type="application/json" id="scene">{json_of(scene)}</script>',
        "scripts": "\n".join(f"<script>\n{source(name)}</script>" for name in SCRIPTS),
    }
    return PLACE.sub(lambda place: parts[place[1]], source("page.html"))


def source(name: str) -> str:
    """Returns the text of one of the page's own sources."""
    return (SOURCES / name).read_text("utf-8")


def json_of(scene: Mapping[str, Any]) -> str:
    """Returns a scene as JSON that cannot end the script it stands in."""
    return json.dumps(scene, separators=(",", ":"), allow_nan=False).replace("<", "\\u003c")
