"""The page of `view` in a browser: what it draws, what it tells, and what mouse, touch and keys do."""

from __future__ import annotations

import json
import tempfile
import unittest
from fractions import Fraction
from pathlib import Path
from typing import Any

from browser import CHROMIUM, NO_WEBGL, SHIFT, WEBGL, Browser, Tab
from support import example
from test_view import scene

from drillolive import run
from drillolive.view.page import page_of
from drillolive.view.scene import Scene, Sizes

SKIPPED = "Chromium is missing (apt-get install chromium), or not wanted"

COUNTED = """
  return SCENES.map((held) => new drillolive.Scene(held).levels.map((level) => {
    const { creases, boundary } = drillolive.edgeCounts(level);
    const { topology, holes } = level;
    const used = new Set(topology.corners).size;
    return {
      points: level.pointCount, edges: topology.edges.count, faces: topology.faceCount,
      euler: used - topology.edges.count + topology.faceCount, boundary, holes: holes.filter(Boolean).length,
      sharp: creases, extraordinary: topology.extraordinaryPoints.length,
    };
  }));
"""

# Makes drawings of the 192 triangles of level 2 of the cube take long, lets 24 faces be the fewest that are drawn in
# motion, and notes each drawing in `drawings`, with what the page says of it.
SLOW = """
  const { renderer, pace } = page.view;
  const draw = renderer.draw.bind(renderer);
  window.drawings = [];
  renderer.draw = (...given) => {
    const drawn = draw(...given);
    const end = performance.now() + (drawn.triangles === 192 ? 120 : 0);
    while (performance.now() < end);
    drawings.push([drawn.triangles, part("caption").textContent]);
    return drawn;
  };
  pace.fewest = 24;
  for (let time = 0; time < 2; time++) page.view.drawNow();
  drawings.length = 0;
"""
# Waits until the view rests.
AT_REST = """
  for (const end = performance.now() + 60000; page.state.isMoving || page.view.isAsked; await wait(20)) {
    if (performance.now() > end) throw new Error("the view does not rest");
  }
"""


def counts_of(name: str, depth: int) -> list[dict[str, int]]:
    """Returns the counts of the levels of an example, as the program tells them."""
    lines = [line.split() for line in run(["levels", f"depth={depth}"], example(name)).text.splitlines()]
    return [{key: int(value) for key, value in zip(words[2::2], words[3::2])} for words in lines]


def point_lines(name: str, depth: int) -> list[list[str]]:
    """Returns the exact coordinates of the points of a level, as the program writes them."""
    text = run(["refine", f"depth={depth}"], example(name)).text
    return [line.split()[1:] for line in text.splitlines() if line.startswith("v ")]


@unittest.skipUnless(CHROMIUM, SKIPPED)
class BrowserTest(unittest.TestCase):
    """Tests in one browser, which is slow to start."""

    @classmethod
    def setUpClass(cls) -> None:
        folder = tempfile.TemporaryDirectory()
        cls.addClassCleanup(folder.cleanup)
        cls.folder, cls.scenes = Path(folder.name), {}
        cls.browser = Browser(*WEBGL)
        cls.addClassCleanup(cls.browser.close)

    folder: Path
    scenes: dict[tuple[str, int], Scene]
    browser: Browser

    def held(self, name: str, depth: int) -> Scene:
        """Returns the scene of an example, which is made once."""
        if (name, depth) not in self.scenes:
            self.scenes[name, depth] = scene(example(name), depth)
        return self.scenes[name, depth]

    def open(self, held: Scene, fragment: str = "", **options: Any) -> Tab:
        """Opens the page of a scene. After the test it must have had no problem, and have asked for nothing."""
        path = self.folder / "page.html"
        path.write_text(page_of(held), "utf-8")
        tab = Tab(self.browser, path, fragment, **options)
        # For the sizes of all parts to settle, which takes two frames, however late they come.
        tab.run("await wait(100); for (const _ of [1, 2]) await new Promise(requestAnimationFrame)")
        self.addCleanup(tab.close)
        self.addCleanup(lambda: self.assertEqual((tab.problems, tab.requests), ([], [])))
        return tab

    def assert_changed(self, before: list[Any], after: list[Any], changed: set[int]) -> None:
        """Asserts that exactly these places of a list have other values."""
        places = {place for place, (one, other) in enumerate(zip(before, after)) if one != other}
        self.assertEqual(places, changed, (before, after))

    # ---- What it draws and tells ----

    def test_counts_are_those_of_the_program(self) -> None:
        names = ("creased_cube", "holed_cube", "canopy", "octahedron", "seamed_cube")
        tab = self.open(self.held("creased_cube", 2))
        found = tab.run(f"const SCENES = {json.dumps([scene(example(name), 2) for name in names])};{COUNTED}")
        for name, levels in zip(names, found):
            self.assertEqual(levels, counts_of(name, 2), name)
        cells = "[...row.cells].map((cell) => cell.innerText)"
        rows = tab.run(f"return [...part('counts').rows].slice(1).map((row) => {cells})")
        columns = [list(level.values()) for level in counts_of("creased_cube", 2)]
        self.assertEqual([row[1:] for row in rows], [list(map(str, row)) for row in zip(*columns)])

    def test_slider_layers_and_faces_change_the_picture(self) -> None:
        tab = self.open(self.held("creased_cube", 2))
        steps = tab.run("""
          const steps = [];
          const step = (work) => {
            work();
            const hashed = picture();
            steps.push([hashed, ...["triangles", "lines", "dots"].map((name) => Number(view.dataset[name]))]);
          };
          const slide = (level) => { part("level").value = level; part("level").dispatchEvent(new Event("input")); };
          const choose = (value) => document.querySelector(`input[value=${value}]`).click();
          step(() => {});
          for (const level of [1, 0, 2]) step(() => slide(level));
          for (const layer of ["edges", "cage", "special"]) step(() => part(`layer-${layer}`).click());
          for (const value of ["sparse", "flat", "z"]) step(() => choose(value));
          return steps;
        """)
        self.assertEqual([step[1] for step in steps], [192, 48, 12, *[192] * 7])
        self.assertEqual([step[2] for step in steps[:6]], [192 + 12, 48 + 12, 12, 192 + 12, 16 + 12, 16])
        self.assertEqual([step[3] for step in steps[5:7]], [0, 8])
        pictures = [step[0] for step in steps]
        self.assertEqual(pictures[0], pictures[3])
        self.assertEqual(len({*pictures}), len(pictures) - 1)
        self.assertEqual(tab.run("return part('level-output').textContent"), "2 of 2 · 96 of 96 faces")

    def test_exact_points_are_those_of_the_program(self) -> None:
        tab = self.open(self.held("creased_cube", 2))
        for depth in range(3):
            found = tab.run(f"""
              page.state.set({{ level: {depth} }});
              return Array.from({{ length: page.state.shown.pointCount }}, (_, point) =>
                page.pointPanel.exact(point).coordinates.map(String));
            """)
            self.assertEqual(found, point_lines("creased_cube", depth))
        words = ["-5/9", "1/3", "0", "123456789012345678901234567890/7", f"-1/{2**100}"]
        near = tab.run(f"return {words}.map((word) => drillolive.Fraction.of(word).toNumber())")
        for word, value in zip(words, near):
            self.assertAlmostEqual(value, float(Fraction(word)), delta=abs(value) * 1e-15)

    def test_it_draws_without_webgl(self) -> None:
        tab = self.open(self.held("cube", 2), before=NO_WEBGL)
        steps, colours = tab.run("""
          const steps = [];
          for (const changes of [{}, { level: 1 }, { surface: "sparse" }, { surface: "limit" }, { point: 3 }]) {
            page.state.set(changes);
            steps.push([view.dataset.renderer, picture(), Number(view.dataset.triangles)]);
          }
          const colourAt = (x, y) => [...view.getContext("2d").getImageData(x, y, 1, 1).data];
          return [steps, [colourAt(view.width / 2, view.height / 2), colourAt(3, 3)]];
        """)
        self.assertEqual({step[0] for step in steps}, {"canvas"})
        self.assertEqual([step[2] for step in steps], [192, 48, 48, 48, 48])
        self.assertEqual(len({step[1] for step in steps}), 5)
        self.assertNotEqual(*colours)

    def test_texture_has_its_charts(self) -> None:
        for name, charts, seams in (("unfolded_cube", 1, 7), ("seamed_cube", 2, 4)):
            tab = self.open(self.held(name, 1), size=(1300, 640))
            found = tab.run("""
              const found = [0, 1].map((level) => {
                page.state.set({ level, point: 3 });
                const { charts, values, seams, chosen } = part("texture").dataset;
                return [charts, values, seams, chosen].map(Number);
              });
              const before = hash(part("texture"));
              page.state.toggle("seams");
              return [...found, before !== hash(part("texture")), part("texture-panel").hidden];
            """)
            texts = [run(["refine", f"depth={depth}", "uv=boundaries"], example(name)).text for depth in (0, 1)]
            wanted = [
                [charts, text.count("vt "), seams * 2**depth, values_at(text, 3)] for depth, text in enumerate(texts)
            ]
            self.assertEqual(found, [*wanted, True, False], name)
            tab.key("w")
            self.assertTrue(tab.run("return part('texture-panel').hidden"))

    def test_what_is_refused_and_left_out_is_told(self) -> None:
        held = scene(example("creased_cube"), 2, sizes=Sizes(faces=30, rows=1000, entries=100))
        tab = self.open(held)
        found = tab.run("""
          const inputs = ["sparse", "limit"].map((name) => document.querySelector(`input[value=${name}]`));
          const isPossible = inputs.map((input) => !input.disabled);
          page.choose(20);
          page.state.set({ surface: "limit" });
          const texts = ["notes", "caption", "point-panel"].map((id) => part(id).textContent);
          return [isPossible, page.state.surface, picture() && Number(view.dataset.triangles), ...texts];
        """)
        self.assertEqual(found[:3], [[False, False], "level", 48])
        refusal = run(["limit", "depth=1"], example("creased_cube")).error.strip()
        for words in (refusal, "Level 2 is thinned", "Rows of level 1", held["notes"][0]["advice"]):
            self.assertIn(words, found[3])
        self.assertEqual(found[4], "Thinned: level 2 is drawn by the 24 faces of level 1.")
        self.assertIn("rows of this level are left out", found[5])
        for word in point_lines("creased_cube", 2)[20]:
            self.assertIn(f"≈ {float(Fraction(word)):.5g}"[:8], found[5])

    # ---- What the reader does ----

    def test_a_point_is_chosen_by_mouse_and_by_keys(self) -> None:
        tab = self.open(self.held("cube", 2), "camera=30 22 5 0 0 0")
        lines = point_lines("cube", 2)
        x, y = tab.run("return placeOf(24)")
        tab.mouse("mouseMoved", x + 3, y + 2)
        found = tab.run("await wait(80); return [part('tip').hidden, part('tip').textContent, fractions()]")
        self.assertEqual(found, [False, f"Point 24{'  '.join(lines[24])}", lines[24]])
        tab.mouse("mousePressed", x, y, "left")
        tab.mouse("mouseReleased", x, y, "left")
        rows = "return [page.state.point, fractions(), document.querySelectorAll('#row tr').length, "
        found = tab.run(rows + "part('announcement').textContent, picture() && Number(view.dataset.dots)]")
        row = run(["stencils", "depth=2"], example("cube")).text.splitlines()[25].split()
        count = len(row) // 2 - 1
        self.assertEqual(found, [24, lines[24], count, f"Level 2. Point 24: {'  '.join(lines[24])}", count + 1])
        tab.mouse("mouseMoved", 2, 2)
        for keys, point in (("n", 25), ("pp", 23)):
            for key in keys:
                tab.key(key)
            self.assertEqual(tab.run("return [page.state.point, fractions()]"), [point, lines[point]])
        tab.key("Escape")
        found = tab.run("return [page.state.point, part('point-panel').textContent.includes('press N')]")
        self.assertEqual(found, [None, True])
        tab.run("part('point').value = '7'; part('point').dispatchEvent(new Event('change'))")
        self.assertEqual(tab.run("return [page.state.point, fractions()]"), [7, lines[7]])
        # Of a closed mesh nearly half of the points are behind the faces, and cannot be picked.
        behind = tab.run("""
          const { left, top } = view.getBoundingClientRect();
          return Array.from({ length: 98 }, (_, point) => point).filter((point) => {
            const [x, y] = placeOf(point);
            return page.picker.pointAt(x - left, y - top, 2) !== point;
          }).length;
        """)
        self.assertTrue(30 < behind < 60, behind)

    def test_keys_do_all_that_a_mouse_does(self) -> None:
        tab = self.open(self.held("cube", 1))
        looks = [tab.run("return look()")]
        changes = [("ArrowLeft", 0, {0}), ("ArrowUp", 0, {1}), ("+", 0, {2}), ("ArrowRight", SHIFT, {3, 5})]
        for key, modifiers, changed in changes:
            tab.key(key, modifiers)
            looks.append(tab.run("return look()"))
            self.assert_changed(looks[-2], looks[-1], changed)
        now = "const { state } = page; return [state.level, state.shading, state.camera.up, state.surface, "
        now += "[...state.layers].length, document.documentElement.dataset.theme]"
        states = [tab.run(now)]
        for key, place in (("[", 0), ("]", 0), ("s", 1), ("u", 2), ("v", 3), ("v", 3), ("c", 4), ("x", 4), ("t", 5)):
            tab.key(key)
            states.append(tab.run(now))
            self.assert_changed(states[-2], states[-1], {place})
        tab.key("?")
        self.assertEqual(tab.run("return [part('help').open, part('keys').children.length]"), [True, 30])
        tab.key("Escape")
        self.assertFalse(tab.run("return part('help').open"))

    def test_each_control_has_a_name_and_is_reached(self) -> None:
        tab = self.open(self.held("unfolded_cube", 1))
        unnamed, unreached, count = tab.run("""
          const all = [...document.querySelectorAll("button, input, [tabindex]")];
          const controls = all.filter((one) => !one.closest("dialog"));
          const nameOf = (one) => one.getAttribute("aria-label") || one.getAttribute("aria-labelledby")
            || [...(one.labels ?? [])].map((label) => label.textContent).join("") || one.textContent;
          const wordsOf = (list) => list.map((one) => one.outerHTML);
          const unreached = controls.filter((one) => one.tabIndex < 0);
          return [wordsOf(controls.filter((one) => !nameOf(one).trim())), wordsOf(unreached), controls.length];
        """)
        self.assertEqual((unnamed, unreached), ([], []))
        self.assertGreater(count, 20)
        reached = []
        for _ in range(5):
            tab.key("Tab")
            focus = "const { id } = document.activeElement; "
            reached.append(tab.run(focus + "return [id, getComputedStyle(part(id)).outlineStyle]"))
        self.assertEqual(reached, [[name, "solid"] for name in ("fit", "theme", "help-open", "view", "level")])

    def test_pointers_turn_move_and_zoom(self) -> None:
        tab = self.open(self.held("cube", 2), is_still=True)
        looks = [tab.run("return look()")]

        def did(changed: set[int]) -> None:
            looks.append(tab.run("return look()"))
            self.assert_changed(looks[-2], looks[-1], changed)

        tab.touch([(200, 300)], [(215, 305)], [(240, 320)])
        did({0, 1})
        tab.drag((200, 300), (240, 330))
        did({0, 1})
        tab.drag((200, 300), (240, 330), "right")
        did({3, 4, 5})
        tab.touch([(200, 300), (300, 300)], [(180, 300), (340, 300)])
        did({2, 3, 4, 5})
        self.assertAlmostEqual(looks[-1][2], looks[-2][2] * 100 / 160, delta=0.02)
        tab.mouse("mouseWheel", 200, 300, deltaX=0, deltaY=200)
        did({2, 3, 4, 5})
        self.assertIsNone(tab.run("return page.state.point"))
        tab.run("part('fit').click()")
        did({2, 3, 4, 5})
        stands = "const fitted = look(); await wait(400); return look().join() === fitted.join()"
        self.assertTrue(tab.run(stands))

    def test_a_slow_machine_turns_a_coarser_level(self) -> None:
        for before in ("", NO_WEBGL):
            self.assert_turns_a_coarser_level(self.open(self.held("cube", 2), before=before))

    def assert_turns_a_coarser_level(self, tab: Tab) -> None:
        """Asserts that a page of the cube with a level 2 that takes long is drawn by level 1 while it moves."""
        tab.run(SLOW)
        # What is fast enough is drawn whole all the time, and not once more at rest.
        tab.run("page.view.pace.longest = Infinity")
        tab.key("ArrowLeft")
        self.assertEqual(tab.run(f"{AT_REST} await wait(400); return drawings.splice(0)"), [[192, ""]])
        tab.run("page.view.pace.longest = 50")
        motions = {
            "key": lambda: tab.key("ArrowLeft"),
            "drag": lambda: tab.drag((200, 300), (240, 330)),
            "touch": lambda: tab.touch([(200, 300)], [(215, 305)], [(240, 320)]),
            "wheel": lambda: tab.mouse("mouseWheel", 200, 300, deltaX=0, deltaY=100),
            "glide": lambda: tab.run("part('fit').click()"),
        }
        coarse = [48, "Thinned: level 2 is drawn by the 24 faces of level 1 while the view moves."]
        for name, motion in motions.items():
            motion()
            drawings, triangles = tab.run(f"{AT_REST} return [drawings.splice(0), view.dataset.triangles]")
            self.assertEqual((drawings[-2:], triangles), ([coarse, [192, ""]], "192"), (name, drawings))

    def test_the_address_has_the_state(self) -> None:
        words = ("surface=sparse", "layers=cage+special", "up=z", "shading=flat", "point=12", "theme=dark")
        first = self.open(self.held("creased_cube", 2), "&".join(["level=1", *words, "camera=50 10 6 0.1 0 0"]))
        first.key("]")
        look = "return [location.hash.slice(1), page.state.toFragment(), picture()]"
        found = first.run("await wait(500);" + look)
        self.assertLessEqual({"level=2", *words, "camera=50+10+6+0.1+0+0"}, set(found[0].split("&")))
        self.assertEqual(found[1], found[0])
        self.assertEqual(self.open(self.held("creased_cube", 2), found[0]).run("await wait(500);" + look), found)
        wrong = "level=9&surface=x&layers=y&up=x&shading=&camera=1 2&point=-1&theme=red"
        state = self.open(self.held("creased_cube", 2), wrong).run(look)[1]
        self.assertEqual(state, "level=2&surface=level&layers=&up=y&shading=smooth")

    def test_light_and_dark_follow_the_system_and_the_switch(self) -> None:
        script = """
          const colour = () => getComputedStyle(document.body).backgroundColor;
          const ground = () => [document.documentElement.dataset.theme, colour(), picture()];
          const before = ground();
          part("theme").click();
          return [before, ground()];
        """
        light = self.open(self.held("cube", 2), theme="light").run(script)
        dark = self.open(self.held("cube", 2), theme="dark").run(script)
        self.assertEqual([ground[0] for ground in light + dark], ["light", "dark", "dark", "light"])
        self.assertEqual(light, dark[::-1])
        for place in (1, 2):
            self.assertNotEqual(light[0][place], light[1][place])

    def test_it_is_usable_on_a_phone(self) -> None:
        tab = self.open(self.held("unfolded_cube", 1), size=(390, 780))
        wide, tops, heights, position = tab.run("""
          const tops = ["view", "level", "counts", "texture"].map((id) => part(id).getBoundingClientRect().top);
          const controls = [...document.querySelectorAll("header button, .choice label, .layers label")];
          const { position } = getComputedStyle(document.querySelector(".view"));
          return [document.documentElement.scrollWidth, tops, controls.map((one) => one.offsetHeight), position];
        """)
        self.assertLessEqual(wide, 390)
        self.assertEqual(tops, sorted(tops))
        self.assertGreaterEqual(min(heights), 40)
        self.assertEqual(position, "sticky")


def values_at(text: str, point: int) -> int:
    """Returns how many texture values the faces of OBJ text have at a point, counted from 0."""
    lines = (line.split()[1:] for line in text.splitlines() if line.startswith("f "))
    return len({word for words in lines for word in words if word.split("/")[0] == str(point + 1)})


if __name__ == "__main__":
    unittest.main()
