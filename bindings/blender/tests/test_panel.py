"""What the panel, the dialog and the preferences draw."""

from __future__ import annotations

import unittest
from types import SimpleNamespace
from typing import Any

import bpy
from cages import CAGES, clear
from compare import add_modifier
from drillolive_blender.operator import DRILLOLIVE_OT_refine
from drillolive_blender.panel import DRILLOLIVE_PT_refine
from drillolive_blender.preferences import DrilloliveBlenderPreferences


class Layout:
    """Stands in for a layout of Blender, and keeps what is drawn."""

    def __init__(self) -> None:
        self.labels: list[tuple[str, str]] = []
        self.properties: list[str] = []
        self.operators: list[str] = []

    def label(self, text: str, icon: str = "NONE") -> None:
        """Keeps a label."""
        self.labels.append((text, icon))

    def prop(self, owner: Any, name: str) -> None:
        """Keeps the name of a property."""
        self.properties.append(name)

    def operator(self, name: str, **properties: Any) -> None:
        """Keeps the name of an operator."""
        self.operators.append(name)


def drawn(kind: type, **properties: Any) -> Layout:
    """Returns what a class draws, with these properties."""
    layout = Layout()
    kind.draw(SimpleNamespace(layout=layout, **properties), bpy.context)
    return layout


class Drawn(unittest.TestCase):
    """What is drawn."""

    def setUp(self) -> None:
        clear()

    def tearDown(self) -> None:
        clear()

    def test_panel(self) -> None:
        """The panel has the button, and the triangles of each depth; that of the modifier is marked."""
        add_modifier(CAGES["cube"](), levels=3)
        layout = drawn(DRILLOLIVE_PT_refine)
        self.assertEqual(layout.operators, ["object.drillolive_refine"])
        counts = [f"Depth {depth}: {12 * 4**depth:,} triangles" for depth in range(1, 7)]
        self.assertEqual([text for text, _ in layout.labels], counts)
        self.assertEqual([text for text, icon in layout.labels if icon == "RADIOBUT_ON"], counts[2:3])

    def test_panel_without_mesh(self) -> None:
        """Without a mesh object the panel says what to do."""
        self.assertEqual([text for text, _ in drawn(DRILLOLIVE_PT_refine).labels], ["Make a mesh object active"])

    def test_dialog(self) -> None:
        """The dialog has all settings, the count of triangles, and what a grid would do."""
        CAGES["cube"]()
        layout = drawn(DRILLOLIVE_OT_refine, depth=2, use_grid=False, offer="")
        self.assertEqual(layout.labels, [("192 triangles", "MESH_DATA")])
        self.assertNotIn("grid_bits", layout.properties)
        layout = drawn(DRILLOLIVE_OT_refine, depth=2, use_grid=True, offer="too long\nrounding helps")
        self.assertEqual([text for text, _ in layout.labels], ["too long", "rounding helps", "192 triangles"])
        self.assertEqual(set(layout.properties), {name for name in PROPERTIES if name != "offer"})

    def test_preferences(self) -> None:
        """The preferences have the folder, and say where the package is."""
        layout = drawn(DrilloliveBlenderPreferences)
        self.assertEqual(layout.properties, ["folder"])
        (text, icon), = layout.labels
        self.assertTrue(text.startswith("Drillolive 0.") and icon == "CHECKMARK", text)


PROPERTIES = list(DRILLOLIVE_OT_refine.__annotations__)
