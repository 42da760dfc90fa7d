"""The command `view`, and the scene that its page shows."""

from __future__ import annotations

import array
import base64
import json
import re
import sys
import unittest
from fractions import Fraction
from pathlib import Path
from typing import Any

from command_runs import FolderTest, run_here
from support import EXAMPLES, TOP, example, fractions_of

from drillolive import run
from drillolive.command.obj_file import read_obj_file
from drillolive.view.page import SCRIPTS, SOURCES, page_of
from drillolive.view.scene import Request, Scene, Sizes, scene_of

CODES = {"u8": "B", "u16": "H", "u32": "I", "f32": "f"}


def scene(text: bytes, depth: int = 2, **options: Any) -> Scene:
    """Returns the scene of OBJ text."""
    return scene_of(read_obj_file(text), Request("mesh.obj", depth, options.pop("mode", "boundaries"), **options))


def numbers(packed: dict[str, str]) -> list[Any]:
    """Returns the numbers of a packed array."""
    return array.array(CODES[packed["type"]], base64.b64decode(packed["data"])).tolist()


class CommandTest(FolderTest):
    def test_the_page_stands_beside_the_mesh(self) -> None:
        mesh = self.file("cube.obj", example("cube"))
        ended = self.done("view", mesh, "-d", "1")
        self.assertEqual(ended.text, f"{self.folder / 'cube.html'}\n")
        self.assertEqual(self.names(), ["cube.html", "cube.obj"])
        self.assertEqual(ended.error, "")

    def test_the_page_goes_where_it_is_told(self) -> None:
        page = self.folder / "page.html"
        self.assertEqual(self.done("view", EXAMPLES / "cube.obj", "-o", page).text, "")
        held = self.done("view", "-d", "2", "--up", "y", data=example("cube")).text
        self.assertEqual(held, page.read_text("utf-8").replace("cube.obj", "standard input"))

    def test_a_mesh_is_never_overwritten(self) -> None:
        mesh = self.file("mesh.html", example("cube"))
        self.done("view", mesh, "-d", "0")
        self.assertEqual(mesh.read_bytes(), example("cube"))
        self.assertEqual(self.names(), ["mesh.html", "mesh.html.html"])

    def test_a_mesh_that_is_refused_has_no_page(self) -> None:
        two_fans = "v 0 0 0\nv 1 0 0\nv 0 1 0\nv -1 0 0\nv 0 -1 0\nf 1 2 3\nf 1 4 5\n"
        for text, status in ((two_fans, 1), ("", 1), ("v 0 0 zero\nf 1 1 1\n", 1)):
            with self.subTest(text=text):
                ended = run_here("view", self.file("mesh.obj", text))
                self.assertEqual((ended.status, ended.text, self.names()), (status, "", ["mesh.obj"]))
                self.assertEqual(ended.error.count("\n"), 1)

    def test_mistakes_lead_on(self) -> None:
        for words, advice in ((["--up", "x"], "choose"), (["-d", "11"], "0 to 10"), (["--uv", "corner"], "corners")):
            with self.subTest(words=words):
                ended = run_here("view", EXAMPLES / "cube.obj", *words, "-o", self.folder / "page.html")
                self.assertEqual((ended.status, self.names()), (2, []))
                self.assertIn(advice, ended.error)

    def test_a_page_ends_where_the_library_does(self) -> None:
        wide = example("cube").replace(b"v -1 -1 1\n", b"v 100000000000000000000000000000000 -1 1\n")
        ended = self.done("view", self.file("wide.obj", wide), "-d", "4")
        self.assertRegex(ended.error, r"^drillolive: .*wide.obj: the page ends at level \d, and says why\n$")
        self.assertIn("value overflow", (self.folder / "wide.html").read_text("utf-8"))

    def test_coordinates_are_rounded_where_that_is_asked(self) -> None:
        mesh = self.file("mesh.obj", example("cube").replace(b"v -1 -1 1\n", b"v -1.26 -1 1\n"))
        self.done("view", mesh, "-d", "0", "--round", "1")
        self.assertIn('"controls":"-13/10 -1 1\\n', (self.folder / "mesh.html").read_text("utf-8"))


class SceneTest(unittest.TestCase):
    def test_points_are_those_of_the_level(self) -> None:
        held = scene(example("dog"), 2)
        for depth, level in enumerate(held["levels"]):
            wanted = fractions_of(run(["refine", f"depth={depth}"], example("dog")).text)
            shown = list(zip(*[iter(numbers(level["points"]))] * 3))
            self.assertEqual(len(shown), len(wanted))
            for point, exact in zip(shown, wanted):
                for axis in range(3):
                    value = held["middle"][axis] + held["radius"] * point[axis]
                    self.assertAlmostEqual(value, float(exact[axis]), delta=1e-6 * held["radius"])

    def test_points_far_from_nought_keep_their_details(self) -> None:
        far = re.sub(rb"v (\S+)", lambda word: b"v %d" % (10**9 + int(word[1])), example("cube"))
        shown = numbers(scene(far, 0)["levels"][0]["points"])
        self.assertEqual(shown, numbers(scene(example("cube"), 0)["levels"][0]["points"]))

    def test_counts_are_those_of_the_program(self) -> None:
        for name in ("dog", "holed_cube", "canopy", "seamed_cube"):
            held = scene(example(name), 2)
            lines = run(["levels", "depth=2"], example(name)).text.splitlines()
            self.assertEqual(held["counts"], [[int(word) for word in line.split()[1::2]] for line in lines])

    def test_rows_and_controls_are_those_of_the_program(self) -> None:
        held = scene(example("creased_cube"), 2)
        for depth in range(3):
            text = run(["stencils", f"depth={depth}"], example("creased_cube")).text
            self.assertEqual(held["levels"][depth]["rows"], text.partition("\n")[2])
        words = [tuple(map(Fraction, line.split())) for line in held["controls"].splitlines()]
        self.assertEqual(words, fractions_of(example("creased_cube").decode()))

    def test_tags_are_those_of_the_level(self) -> None:
        text = example("creased_cube") + b"t corner 2/2/0 6 7 10 0.5\nt hole 1/0/0 2\n"
        level = scene(text, 1)["levels"][1]
        lines = [line.split() for line in run(["refine", "depth=1", "tags=yes"], text).text.splitlines()]
        creases = [(int(line[3]), int(line[4]), line[5]) for line in lines if line[:2] == ["t", "crease"]]
        places, ends = numbers(level["crease_sharpness"]), numbers(level["creases"])
        shown = [(ends[2 * i], ends[2 * i + 1], level["sharpness"][place]) for i, place in enumerate(places)]
        self.assertEqual((shown, len(shown)), (creases, 8))
        self.assertEqual(numbers(level["sharp_points"]), [6])
        self.assertEqual([level["sharpness"][place] for place in numbers(level["point_sharpness"])], ["10"])
        self.assertEqual(numbers(level["holes"]), [8, 9, 10, 11])

    def test_sparse_faces_are_those_of_the_program(self) -> None:
        held = scene(example("creased_cube"), 4)
        levels: list[list[tuple[str, int]]] = []
        for line in run(["sparse", "depth=4"], example("creased_cube")).text.splitlines():
            if line.startswith("level"):
                levels.append([])
            elif line.startswith("f"):
                levels[-1].append((line.split()[1], int(line.split()[2])))
        for level, wanted in zip(held["sparse"], levels):
            kinds = ["hrsl"[kind] for kind in numbers(level["kinds"])]
            self.assertEqual(list(zip(kinds, numbers(level["numbers"]))), wanted)
        self.assertEqual(len(held["sparse"]), 5)

    def test_a_refused_limit_is_told(self) -> None:
        held = scene(example("creased_cube"), 1)
        answer = run(["limit", "depth=1"], example("creased_cube"))
        self.assertIsNone(held["limit"])
        notes = [note for note in held["notes"] if note["line"] == answer.error.strip()]
        self.assertEqual([note["what"] for note in notes], ["Limit points of level 1"])
        self.assertTrue(notes[0]["advice"].endswith("."))
        self.assertIsNotNone(scene(example("creased_cube"), 3)["limit"])

    def test_limit_points_serve_each_level(self) -> None:
        held = scene(example("cube"), 0)
        shown = list(zip(*[iter(numbers(held["limit"]))] * 3))
        wanted = fractions_of(run(["limit", "depth=1"], example("cube")).text)[:8]
        self.assertEqual(len(shown), 8)
        for point, exact in zip(shown, wanted):
            for axis in range(3):
                value = point[axis] * held["radius"] + held["middle"][axis]
                self.assertAlmostEqual(value, float(exact[axis]), delta=1e-6)

    def test_large_levels_are_thinned(self) -> None:
        held = scene(example("dog"), 2, sizes=Sizes(faces=2000, rows=1000, entries=100))
        levels = held["levels"]
        self.assertEqual([level["shape"] for level in levels], [0, 1, 1])
        self.assertEqual([level["rows"] is None for level in levels], [True, True, True])
        self.assertEqual(len(numbers(levels[2]["points"])), 3 * 1362)
        told = [note["what"] for note in held["notes"]]
        self.assertEqual(told, ["Rows of level 0", "Rows of level 1", "Level 2 is thinned"])
        self.assertEqual(len(held["sparse"]), 2)

    def test_faces_without_texture_have_no_stand_ins(self) -> None:
        points = b"v 0 0 0\nv 1 0 0\nv 1 1 0\nv 0 1 0\nv 2 0 0\nv 2 1 0\n"
        text = points + b"vt 0 0\nvt 1 0\nvt 1 1\nvt 0 1\nf 1/1 2/2 3/3 4/4\nf 2 5 6 3\n"
        levels = scene(text, 2)["levels"]
        self.assertEqual(numbers(levels[0]["texture"]["textured"]), [1, 0])
        self.assertEqual(numbers(levels[2]["texture"]["textured"]), [1] * 16 + [0] * 16)
        self.assertIsNone(scene(text, 1, mode="none")["levels"][0]["texture"])
        self.assertIsNone(scene(example("seamed_cube"), 1)["levels"][1]["texture"]["textured"])


class PageTest(unittest.TestCase):
    def test_the_page_asks_for_nothing(self) -> None:
        page = page_of(scene(example("unfolded_cube"), 1)).replace("http://www.w3.org/2000/svg", "")
        self.assertEqual(re.findall(r"\w+://\S*", page), [])
        self.assertEqual(re.findall(r"""(?:src|href)=["']?([^"'> ]*)""", page), ["data:,"])
        self.assertEqual(re.findall(r"url\(|@import|fetch\(|XMLHttpRequest|WebSocket|sendBeacon|\bimport\b", page), [])
        self.assertIn("default-src 'none'", page)

    def test_names_cannot_end_the_script(self) -> None:
        held = {**scene(example("cube"), 0), "name": "</script><b>&.obj"}
        page = page_of(held)
        self.assertIn("<title>&lt;/script&gt;&lt;b&gt;&amp;.obj - drillolive</title>", page)
        self.assertEqual(page.count("</script>"), len(SCRIPTS) + 2)
        found = re.search(r'id="scene">(.*?)</script>', page)
        self.assertEqual(json.loads(found[1])["name"] if found else None, held["name"])

    def test_all_sources_are_in_the_page_and_in_the_wheel(self) -> None:
        sources = {path.name for path in SOURCES.iterdir() if path.suffix in (".js", ".html", ".css")}
        self.assertEqual(sources, {*SCRIPTS, "page.html", "style.css"})
        sys.path.insert(0, str(TOP / "bindings" / "python"))
        import build_wheel

        self.assertLessEqual({f"drillolive/view/{name}" for name in sources}, set(build_wheel.package_files()))

    def test_sources_keep_their_form(self) -> None:
        for path in sorted(SOURCES.glob("*.js")):
            text = path.read_text("utf-8")
            self.assertTrue(text.startswith('"use strict";\n'), path.name)
            self.assertLess(text.count("\n"), 400, path.name)
            globals_made = re.findall(r"^(?:const|let|var|function|class) .*", text, re.M)
            self.assertEqual(globals_made, [], path.name)

    def test_20000_quads_are_whole_at_depth_two(self) -> None:
        self.assertGreaterEqual(Sizes().faces, 16 * 20_000)


if __name__ == "__main__":
    unittest.main()
