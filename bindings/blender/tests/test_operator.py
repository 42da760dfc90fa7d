"""The operator: its defaults, undo, what it keeps, what it refuses, and its time."""

from __future__ import annotations

import tempfile
import time
import unittest
from pathlib import Path
from unittest import mock

import bpy
import numpy as np
from cages import CAGES, clear, set_edge_creases, shaken
from compare import add_modifier, quads_of, refined
from drillolive_blender import package, results
from drillolive_blender.meshes import numbers_of, read_cage
from drillolive_blender.refinement import on_grid
from drillolive_blender.results import words_on_rest
from drillolive_blender.settings import BOUNDARY_ITEMS, UV_ITEMS, Settings, defaults_of, triangle_count

# The most seconds of processor time for 20,000 quads at depth 2. It takes a third where nothing else runs.
MOST_SECONDS = 6.0


def refusal(**properties: object) -> str:
    """Returns the line with which the operator refuses the active object. AssertionError: it does not refuse."""
    try:
        bpy.ops.object.drillolive_refine(**properties)
    except RuntimeError as error:
        return str(error)
    raise AssertionError("nothing is refused")


class Defaults(unittest.TestCase):
    """What a Subdivision modifier says."""

    def tearDown(self) -> None:
        clear()

    def test_modifiers(self) -> None:
        """The defaults are the settings of the modifier that mean the same."""
        cases = [
            ({"levels": 3}, Settings(depth=3), 0),
            ({"levels": 0}, Settings(depth=1), 0),
            ({"levels": 6, "use_limit_surface": True}, Settings(depth=6, limit=True), 0),
            ({"uv_smooth": "SMOOTH_ALL", "levels": 2}, Settings(uv_smooth="SMOOTH_ALL"), 0),
            ({"uv_smooth": "PRESERVE_CORNERS_AND_JUNCTIONS", "levels": 2}, Settings(uv_smooth="PRESERVE_CORNERS"), 1),
            ({"boundary_smooth": "PRESERVE_CORNERS", "levels": 2}, Settings(boundary_smooth="PRESERVE_CORNERS"), 0),
            ({"use_creases": False, "levels": 2}, Settings(use_creases=False), 0),
            ({"subdivision_type": "SIMPLE", "levels": 2}, Settings(), 1),
        ]
        source = CAGES["cube"]()
        self.assertEqual(defaults_of(source), (Settings(), []))
        for properties, settings, words in cases:
            with self.subTest(**properties):
                modifier = add_modifier(source, **properties)
                found, said = defaults_of(source)
                self.assertEqual((found, len(said)), (settings, words))
                source.modifiers.remove(modifier)

    def test_menus(self) -> None:
        """The menus have Blender's own identifiers, names and descriptions."""
        for name, items in (("uv_smooth", UV_ITEMS), ("boundary_smooth", BOUNDARY_ITEMS)):
            with self.subTest(menu=name):
                held = bpy.types.SubsurfModifier.bl_rna.properties[name].enum_items
                theirs = {item.identifier: (item.identifier, item.name, item.description) for item in held}
                self.assertEqual(items, [theirs[identifier] for identifier, _, _ in items])

    def test_counts(self) -> None:
        """The count of triangles that is said is that of the mesh that is made."""
        for name in ("cylinder", "monkey"):
            for depth in (1, 2):
                with self.subTest(mesh=name, depth=depth):
                    source = CAGES[name]()
                    made = refined(source, depth=depth).data
                    made.calc_loop_triangles()
                    self.assertEqual(triangle_count(len(source.data.loops), depth), len(made.loop_triangles))


class Objects(unittest.TestCase):
    """The new object and the old one."""

    def setUp(self) -> None:
        clear()

    def tearDown(self) -> None:
        clear()

    def test_undo(self) -> None:
        """One undo takes the new object away."""
        CAGES["cube"]()
        bpy.ops.ed.undo_push(message="before")
        bpy.ops.object.drillolive_refine("EXEC_DEFAULT", True, depth=1)
        self.assertEqual(len(bpy.data.objects), 2)
        bpy.ops.ed.undo()
        self.assertEqual([one.name for one in bpy.data.objects], ["Cube"])
        self.assertFalse(bpy.data.objects["Cube"].hide_get())

    def test_new_object(self) -> None:
        """The new object stands where the old one does, keeps its other modifiers, and is active."""
        source = CAGES["cube"]()
        source.location = (1, 2, 3)
        add_modifier(source, levels=1)
        source.modifiers.new("Wave", "WAVE")
        made = refined(source)
        self.assertEqual((made.name, tuple(made.location)), ("Cube depth 1", (1, 2, 3)))
        self.assertEqual([one.name for one in made.modifiers], ["Wave"])
        self.assertEqual([one.name for one in source.modifiers], ["Subdivision", "Wave"])
        self.assertTrue(made.select_get() and source.hide_get() and bpy.context.object == made)
        self.assertEqual(list(made.users_collection), list(source.users_collection))
        self.assertEqual(len(source.data.vertices), 8)

    def test_nothing_is_left(self) -> None:
        """Where the last part of the new object cannot be made, nothing of it is left."""
        source = CAGES["cube"]()
        with mock.patch.object(results, "write_keys", side_effect=MemoryError("full")):
            with self.assertRaisesRegex(RuntimeError, "full"):
                bpy.ops.object.drillolive_refine(depth=1)
        self.assertEqual((list(bpy.data.objects), list(bpy.data.meshes)), ([source], [source.data]))

    def test_edit_mode(self) -> None:
        """In edit mode the mesh is taken as it is edited."""
        CAGES["cube"]()
        bpy.ops.object.mode_set(mode="EDIT")
        bpy.ops.mesh.subdivide()
        bpy.ops.object.drillolive_refine(depth=1)
        self.assertEqual(len(bpy.context.object.data.polygons), 96)

    def test_loose_parts(self) -> None:
        """Loose edges and points are kept where they are, and undivided."""
        mesh = bpy.data.meshes.new("loose")
        points = [(0, 0, 0), (1, 0, 0), (1, 1, 0), (0, 1, 0), (5, 0, 0), (6, 0, 0), (7, 0, 0)]
        mesh.from_pydata(points, [(4, 5), (2, 4)], [(0, 1, 2, 3)])
        source = bpy.data.objects.new("loose", mesh)
        bpy.context.collection.objects.link(source)
        for limit in (False, True):
            with self.subTest(limit=limit):
                made = refined(source, depth=1, limit=limit).data
                self.assertEqual([tuple(one.co) for one in made.vertices[4:7]], points[4:])
                loose = sorted(tuple(sorted(one.vertices)) for one in made.edges if one.is_loose)
                self.assertEqual((loose, len(made.polygons), len(made.edges)), ([(2, 4), (4, 5)], 4, 14))

    def test_empty_mesh(self) -> None:
        """A mesh without faces gives a mesh without faces."""
        source = bpy.data.objects.new("empty", bpy.data.meshes.new("empty"))
        bpy.context.collection.objects.link(source)
        self.assertEqual(len(refined(source, depth=2).data.vertices), 0)

    def test_valid(self) -> None:
        """Blender finds nothing to mend in the new mesh."""
        self.assertFalse(refined(CAGES["monkey"](), depth=2).data.validate(verbose=True))

    def test_time(self) -> None:
        """A torus of 20,000 quads is refined by two steps in a few seconds."""
        bpy.ops.mesh.primitive_torus_add(major_segments=200, minor_segments=100)
        begin, worked = time.perf_counter(), time.process_time()
        made = refined(bpy.context.object, depth=2)
        seconds = time.process_time() - worked
        print(f"20,000 quads at depth 2: {time.perf_counter() - begin:.2f} s, of processor time {seconds:.2f} s")
        self.assertEqual(len(made.data.polygons), 320000)
        self.assertLess(seconds, MOST_SECONDS)


class Grids(unittest.TestCase):
    """Numbers with too many digits."""

    def setUp(self) -> None:
        clear()
        self.source = CAGES["torus"]()

    def tearDown(self) -> None:
        clear()

    def offered(self, depth: int) -> tuple[int, str]:
        """Returns the bits of the grid that is offered, and the line."""
        bpy.context.view_layer.objects.active = self.source
        count = len(bpy.data.objects)
        line = refusal(depth=depth)
        self.assertEqual(len(bpy.data.objects), count)
        return int(line.partition("Round to Grid with ")[2].split()[0]), line

    def test_offer(self) -> None:
        """Long numbers are refused with the finest grid that helps, and rounded only when that is asked for."""
        for depth, noise in ((1, 1e-33), (1, 2.0**-125), (2, 1e-30), (3, 1e-26)):
            with self.subTest(depth=depth, noise=noise):
                self.source.data.vertices[0].co[0] = noise
                bits, line = self.offered(depth)
                points = numbers_of(self.source.data.vertices, "co", np.float32, 3)
                changed = int((on_grid(points, bits) != points).sum())
                self.assertIn(f" {changed} coordinate", line)
                made = refined(self.source, depth=depth, use_grid=True, grid_bits=bits)
                self.assertEqual(len(made.data.polygons), 84 * 4**depth)
                bpy.context.view_layer.objects.active = self.source
                self.assertIn("Round to Grid", refusal(depth=depth, use_grid=True, grid_bits=bits + 1))

    def test_nobody_answers(self) -> None:
        """Without a window a grid is offered in words, and nothing is rounded."""
        self.source.data.vertices[0].co[0] = 1e-30
        with self.assertRaisesRegex(RuntimeError, "Turn on Round to Grid"):
            bpy.ops.object.drillolive_refine("INVOKE_DEFAULT", depth=2)
        self.assertEqual(len(bpy.data.objects), 1)

    def test_uvs(self) -> None:
        """Long UVs are rounded to the grid too."""
        self.source.data.uv_layers[0].data[0].uv[0] = 1e-30
        bits, line = self.offered(2)
        self.assertIn(" 1 UV ", line)
        refined(self.source, depth=2, use_grid=True, grid_bits=bits)

    def test_exact_grid(self) -> None:
        """A grid that has all numbers on it changes nothing."""
        source = CAGES["cube"]()
        plain = quads_of(refined(source, depth=2).data)
        on = quads_of(refined(source, depth=2, use_grid=True, grid_bits=1).data)
        self.assertEqual(on.points.tolist(), plain.points.tolist())

    def test_numbers_that_are_none(self) -> None:
        """A coordinate that is not finite is refused, and no grid is offered."""
        mesh = self.source.data
        mesh.vertices.foreach_set("co", [float("inf")] * 3 * len(mesh.vertices))
        line = refusal(depth=1)
        self.assertIn("finite", line)
        self.assertNotIn("Grid", line)


class Refusals(unittest.TestCase):
    """What is refused by a line."""

    def setUp(self) -> None:
        clear()

    def tearDown(self) -> None:
        clear()

    def test_limit(self) -> None:
        """A point that is semi-sharp at the greatest depth within reach, or ends a sharp crease, has no limit."""
        source = CAGES["cube"]()
        for creases, cause in (([0.95], "semi-sharp"), ([1.0] + [0.0] * 11, "dart")):
            with self.subTest(cause=cause):
                set_edge_creases(source, creases)
                line = refusal(depth=1, limit=True)
                self.assertIn(cause, line)
                self.assertIn("turn off Limit", line)

    def test_size(self) -> None:
        """A level of too many faces is refused."""
        bpy.ops.mesh.primitive_torus_add(major_segments=200, minor_segments=100)
        self.assertIn("faces", refusal(depth=6))

    def test_other_objects(self) -> None:
        """An object that is no mesh is not refined."""
        bpy.ops.object.empty_add()
        self.assertFalse(bpy.ops.object.drillolive_refine.poll())

    def test_custom_normals(self) -> None:
        """Custom normals are dropped, with a word."""
        source = shaken_cube_with_normals()
        self.assertIn("custom normals are dropped", words_on_rest(source, read_cage(source)))
        self.assertFalse(refined(source, depth=1).data.has_custom_normals)

    def test_attributes(self) -> None:
        """An attribute of a user's own is dropped, with a word."""
        source = CAGES["monkey"]()
        self.assertEqual(words_on_rest(source, read_cage(source)), [])
        source.data.attributes.new("heat", "FLOAT", "POINT")
        self.assertEqual(words_on_rest(source, read_cage(source)), ["attributes are dropped: heat"])


def shaken_cube_with_normals() -> bpy.types.Object:
    """Returns a cube with custom normals."""
    source = CAGES["cube"]()
    shaken(5)
    mesh = source.data
    if hasattr(mesh, "use_auto_smooth"):
        mesh.use_auto_smooth = True
    mesh.normals_split_custom_set_from_vertices([(0, 0, 1)] * len(mesh.vertices))
    return source


class Packages(unittest.TestCase):
    """Where the package is found."""

    def test_places(self) -> None:
        """The folder of the preferences is the only place; else a copy, an installed package, and the checkout."""
        with tempfile.TemporaryDirectory() as name:
            folder = Path(name).resolve()
            add_on = folder / "blender" / "drillolive_blender"
            checkout = folder / "python"
            self.assertEqual(list(package.places("", add_on)), [None, checkout])
            (add_on / "carried" / "drillolive").mkdir(parents=True)
            self.assertEqual(list(package.places("", add_on)), [add_on / "carried", None, checkout])
            self.assertEqual(list(package.places(name, add_on)), [Path(name) / "share" / "drillolive" / "python"])

    def test_nowhere(self) -> None:
        """A folder without the package is named in the line."""
        with tempfile.TemporaryDirectory() as name:
            found = package.search(name, Path(name))
            self.assertIsNone(found.module)
            self.assertIn(f"{name}/share/drillolive/python", found.line)

    def test_found(self) -> None:
        """The package of this checkout is found, and its version is that of the add-on."""
        import drillolive_blender

        found = package.look("")
        self.assertIsNotNone(found.module, found.line)
        version = tuple(int(part) for part in found.module.__version__.split("."))
        self.assertEqual(version, drillolive_blender.bl_info["version"])
