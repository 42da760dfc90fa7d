"use strict";
/* The panels beside the picture: level, faces, layers with their legend, looks, counts and notes. */
{
  const { LAYERS, edgeCounts, creaseStyle } = drillolive;
  const SVG = "http://www.w3.org/2000/svg";
  const MOST_SWATCHES = 6;

  const SURFACES = [["level", "Level"], ["sparse", "Sparse"], ["limit", "Limit"]];
  const SHADINGS = [["smooth", "Smooth"], ["flat", "Flat"]];
  const UPS = [["y", "Y"], ["z", "Z"]];
  const NAMES = {
    cage: "Cage", edges: "Edges", creases: "Creases", boundary: "Boundary", seams: "Seams", holes: "Holes",
    special: "Special points", limit: "Limit points", texture: "Texture panel",
  };
  const SPARSE = [
    ["selected", "selected: refined in the next level"], ["leaf", "leaf: refined no further"],
    ["outer", "outer: beside selected ones"], ["pale", "leaf of a level before"], ["hole", "hole"],
  ];
  const SURFACE_NOTES = {
    level: "", limit: "Each point lies where further steps take it in the end.",
    sparse: "Faces are refined further only near features.",
  };

  /** Returns an element with these attributes and contents. */
  const element = (name, attributes = {}, ...contents) => {
    const made = document.createElement(name);
    for (const [key, value] of Object.entries(attributes)) made.setAttribute(key, value);
    made.append(...contents);
    return made;
  };

  /** Returns a small picture of shapes: each a name and its attributes. */
  const swatch = (...shapes) => {
    const picture = document.createElementNS(SVG, "svg");
    picture.setAttribute("viewBox", "0 0 26 16");
    picture.setAttribute("aria-hidden", "true");
    for (const [name, attributes] of shapes) {
      const shape = document.createElementNS(SVG, name);
      for (const [key, value] of Object.entries(attributes)) shape.setAttribute(key, value);
      picture.append(shape);
    }
    return picture;
  };

  const line = (colour, width, more = {}) => ["path", { d: "M1 8H25", stroke: colour, "stroke-width": width, ...more }];
  const box = (colour, more = {}) => ["rect", { x: 4, y: 2, width: 18, height: 12, rx: 2, fill: colour, ...more }];
  const stripes = ["path", { d: "M5 13 15 3M11 13 21 3", stroke: "var(--hole)", "stroke-width": 1.5 }];
  const frame = box("none", { stroke: "var(--hole)" });

  const SWATCHES = {
    cage: () => swatch(line("var(--cage)", 1.4)),
    edges: () => swatch(box("var(--front)"), ["path", { d: "M4 8H22M13 2V14", stroke: "var(--edge)" }]),
    creases: () => swatch(["path", { d: "M1 8H9", stroke: "var(--blunt)", "stroke-width": 2 }],
      ["path", { d: "M9 8H17", stroke: "var(--sharp)", "stroke-width": 3.6 }],
      ["path", { d: "M17 8H25", stroke: "var(--infinite)", "stroke-width": 5 }]),
    boundary: () => swatch(line("var(--boundary)", 3.2)),
    seams: () => swatch(line("var(--seam)", 2.6, { "stroke-dasharray": "5 4" })),
    holes: () => swatch(frame, stripes),
    special: () => swatch(["path", { d: "M7 3 12 8 7 13 2 8Z", fill: "var(--extraordinary)" }],
      ["circle", { cx: 19, cy: 8, r: 4.5, fill: "var(--sharp)" }]),
    limit: () => swatch(["path", { d: "M4 12 19 5", stroke: "var(--limit)", "stroke-width": 1.6 }],
      ["circle", { cx: 19, cy: 5, r: 3.4, fill: "var(--limit)" }]),
    texture: () => swatch(box("#56b4e966", { stroke: "var(--seam)", "stroke-dasharray": "4 3" })),
  };

  /** Fills a fieldset with choices, and returns what marks the current one. */
  const choices = (fieldset, name, words, choose) => {
    const inputs = words.map(([value, label]) => {
      const input = element("input", { type: "radio", name, value });
      input.addEventListener("change", () => choose(value));
      fieldset.append(element("label", {}, input, label));
      return input;
    });
    return (current, isPossible = () => true) => {
      for (const input of inputs) {
        input.checked = input.value === current;
        input.disabled = !isPossible(input.value);
      }
    };
  };

  class Panels {
    constructor(state, view) {
      Object.assign(this, { state, view, scene: state.scene });
      this.part = (id) => document.getElementById(id);
      this.makeHead();
      this.makeLevel();
      this.makeLayers();
      this.makeCounts();
      this.makeNotes();
    }

    makeHead() {
      const { scene } = this;
      const [first, last] = [scene.countsOf(0), scene.levels.length - 1];
      const count = (number, name) => `${number.toLocaleString("en")} ${name}${number === 1 ? "" : "s"}`;
      this.part("name").textContent = scene.name;
      const counts = [count(first.points, "point"), count(first.faces, "face"), `levels 0 to ${last}`];
      this.part("summary").textContent = counts.join(", ");
    }

    makeLevel() {
      const { state, scene } = this;
      const slider = this.part("level");
      slider.max = scene.levels.length - 1;
      slider.disabled = scene.levels.length === 1;
      slider.addEventListener("input", () => state.set({ level: Number(slider.value) }));
      this.part("ticks").append(...scene.levels.map((level) => element("span", {}, String(level.number))));
      this.markSurface = choices(this.part("surfaces"), "surface", SURFACES, (surface) => state.set({ surface }));
      this.markShading = choices(this.part("shadings"), "shading", SHADINGS, (shading) => state.set({ shading }));
      this.markUp = choices(this.part("ups"), "up", UPS, (up) => this.setUp(up));
    }

    setUp(up) {
      this.state.camera.up = up;
      this.view.fit();
      this.state.set({});
    }

    makeLayers() {
      this.boxes = {};
      for (const layer of LAYERS) {
        if (layer === "texture" && !this.scene.hasTexture) continue;
        const input = element("input", { type: "checkbox", id: `layer-${layer}` });
        input.addEventListener("change", () => this.state.toggle(layer, input.checked));
        this.part("layers").append(element("label", {}, input, SWATCHES[layer](), NAMES[layer]));
        this.boxes[layer] = input;
      }
    }

    makeCounts() {
      const { scene } = this;
      const levels = scene.counts.map((row) => element("th", { scope: "col" }, String(row[0])));
      const head = element("thead", {}, element("tr", {}, element("th", { scope: "col" }, "Level"), ...levels));
      const rows = scene.names.slice(1).map((name, place) => {
        const cells = scene.counts.map((row) => element("td", {}, row[place + 1].toLocaleString("en")));
        return element("tr", {}, element("th", { scope: "row" }, name), ...cells);
      });
      this.part("counts").append(head, element("tbody", {}, ...rows));
    }

    makeNotes() {
      const { notes } = this.scene;
      this.part("notes-section").hidden = !notes.length;
      for (const { what, line: cause, advice } of notes) {
        const parts = [element("strong", {}, what), element("code", {}, cause), element("span", {}, advice)];
        this.part("notes").append(element("li", {}, ...parts));
      }
    }

    /** Shows the state. */
    update() {
      const { state, scene } = this;
      this.part("level").value = state.level;
      this.part("level").setAttribute("aria-valuetext", `level ${state.level} of ${scene.levels.length - 1}`);
      this.part("level-output").textContent = `${state.level} of ${scene.levels.length - 1} · ${this.faces()}`;
      this.markSurface(state.surface, (surface) => state.hasSurface(surface));
      this.markShading(state.shading);
      this.markUp(state.camera.up);
      this.updateLayers();
      this.updateLegend();
      this.updateCounts();
      this.tellSurface();
      this.part("caption").textContent = this.view.thinning();
      this.part("texture-panel").hidden = !(scene.hasTexture && state.layers.has("texture"));
    }

    /** Returns how many faces the level has, and how many of them are sparse faces where these are shown. */
    faces() {
      const { state, scene } = this;
      const all = scene.countsOf(state.level).faces.toLocaleString("en");
      if (state.surface !== "sparse") return `${all} faces`;
      return `${scene.sparse.countOf(state.level).toLocaleString("en")} of ${all} faces`;
    }

    tellSurface() {
      const missing = SURFACES.filter(([surface]) => !this.state.hasSurface(surface)).map(([surface]) => surface);
      const what = missing.join(" and no ");
      const reason = what && ` There are no ${what} faces: “Refused and left out” says why.`;
      const text = SURFACE_NOTES[this.state.surface] + reason;
      this.part("surface-note").textContent = text.trim();
      this.part("surface-note").hidden = !text;
    }

    updateLayers() {
      const { state, scene } = this;
      const { creases, boundary, seams } = edgeCounts(state.shown);
      const hasHoles = state.shown.holes.includes(1);
      const has = { creases, boundary, seams, holes: hasHoles, limit: scene.limit && state.surface !== "limit" };
      for (const [layer, input] of Object.entries(this.boxes)) {
        input.checked = state.layers.has(layer);
        input.disabled = layer in has && !has[layer];
        input.parentElement.title = input.disabled ? "This level has none" : "";
      }
    }

    updateLegend() {
      const { state } = this;
      const legend = this.part("legend");
      legend.replaceChildren();
      const { creases, points, sharpness } = state.shown.tags;
      if (creases.length || points.length) legend.append(this.ramp(sharpness));
      if (state.surface !== "sparse") return;
      const kinds = SPARSE.map(([kind, label]) => {
        const fill = box(`var(--${kind})`, { stroke: "var(--muted)" });
        const picture = kind === "hole" ? swatch(frame, stripes) : swatch(fill);
        return element("div", { class: "kind" }, picture, label);
      });
      legend.append(element("div", {}, ...kinds));
    }

    /** Returns the sharpness of creases and points with their colours, the bluntest first. */
    ramp(sharpness) {
      const styles = sharpness.map((held) => ({ held, ...creaseStyle(held) }));
      styles.sort((one, other) => one.colour.value - other.colour.value);
      const shown = styles.slice(0, MOST_SWATCHES).map(({ held, colour, width }) => {
        const label = held.isInfinite ? "infinite" : held.word;
        return element("span", { class: "kind" }, swatch(line(this.view.palette.css(colour), width)), label);
      });
      if (styles.length > MOST_SWATCHES) shown.push(`and ${styles.length - MOST_SWATCHES} more`);
      return element("div", { class: "ramp" }, "Sharpness", ...shown);
    }

    updateCounts() {
      for (const row of this.part("counts").rows) {
        [...row.cells].forEach((cell, place) => cell.classList.toggle("current", place === this.state.level + 1));
      }
    }
  }

  Object.assign(drillolive, { Panels, element });
}
