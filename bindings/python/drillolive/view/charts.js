"use strict";
/* The second panel: the texture of the level, in charts. */
{
  const { NONE, shapeFor } = drillolive;
  const MOST_FACES = 40000;
  const [MARGIN, MOST_DOTS] = [26, 6000];
  // Pale fills that are told apart in lightness too; neighbours in this list are far from each other.
  const FILLS = ["#56b4e9", "#e69f00", "#009e73", "#cc79a7", "#f0e442", "#0072b2", "#d55e00", "#999999"];
  const chartsOfLevels = new WeakMap();

  /** Returns the number of the chart of each face: faces are in one where edges that are no seams join them. */
  const chartsOf = (level) => {
    if (!chartsOfLevels.has(level)) chartsOfLevels.set(level, joinedFaces(level));
    return chartsOfLevels.get(level);
  };

  const joinedFaces = (level) => {
    const { topology, textureCorners, textured } = level;
    const parents = Uint32Array.from({ length: topology.faceCount }, (_, face) => face);
    const rootOf = (face) => {
      while (parents[face] !== face) face = parents[face] = parents[parents[face]];
      return face;
    };
    for (let edge = 0; edge < topology.edges.count; edge++) {
      const [one, other] = topology.edges.faces.subarray(2 * edge, 2 * edge + 2);
      if (other !== NONE && !topology.isSeam(edge, textureCorners)) parents[rootOf(other)] = rootOf(one);
    }
    const numbers = new Map();
    const charts = Int32Array.from(parents, (_, face) => {
      if (textured && !textured[face]) return -1;
      const root = rootOf(face);
      if (!numbers.has(root)) numbers.set(root, numbers.size);
      return numbers.get(root);
    });
    return { charts, count: numbers.size };
  };

  class TexturePanel {
    constructor(canvas, caption, view) {
      Object.assign(this, { canvas, caption, view, state: view.state, context: canvas.getContext("2d") });
      new ResizeObserver(() => this.draw()).observe(canvas);
    }

    get isShown() {
      return this.state.scene.hasTexture && this.state.layers.has("texture");
    }

    draw() {
      const level = this.state.shown;
      const [width, height] = [this.canvas.clientWidth, this.canvas.clientHeight];
      if (!this.isShown || !width || !height) return;
      const ratio = Math.min(window.devicePixelRatio || 1, 2);
      this.canvas.width = Math.round(width * ratio);
      this.canvas.height = Math.round(height * ratio);
      this.context.setTransform(ratio, 0, 0, ratio, 0, 0);
      this.context.fillStyle = this.view.palette.css("ground");
      this.context.fillRect(0, 0, width, height);
      if (!level.hasTexture) return this.describe("The texture of this level is refused.", {});
      this.shape = shapeFor(this.state.scene, level, MOST_FACES);
      this.values = level.values;
      this.place(width, height);
      this.drawSquare();
      this.drawFaces();
      this.drawSeams();
      this.drawDots();
      this.tell();
    }

    /** Sets how values come to the panel: all that corners name, and the unit square, are in it. */
    place(width, height) {
      let [left, right, low, high] = [0, 1, 0, 1];
      for (const value of this.usedValues()) {
        const [u, v] = [this.values[2 * value], this.values[2 * value + 1]];
        [left, right] = [Math.min(left, u), Math.max(right, u)];
        [low, high] = [Math.min(low, v), Math.max(high, v)];
      }
      const scale = Math.min((width - 2 * MARGIN) / (right - left), (height - 2 * MARGIN) / (high - low));
      const [x, y] = [(width - scale * (right - left)) / 2, (height + scale * (high - low)) / 2];
      this.at = (u, v) => [x + scale * (u - left), y - scale * (v - low)];
    }

    usedValues() {
      const { topology, textureCorners, textured } = this.shape;
      if (!textured) return new Set(textureCorners);
      const used = new Set();
      for (let face = 0; face < topology.faceCount; face++) {
        if (!textured[face]) continue;
        const [first, end] = [topology.starts[face], topology.starts[face + 1]];
        for (let corner = first; corner < end; corner++) used.add(textureCorners[corner]);
      }
      return used;
    }

    placeOf(value) {
      return this.at(this.values[2 * value], this.values[2 * value + 1]);
    }

    drawSquare() {
      const { context, view } = this;
      const [[left, bottom], [right, top]] = [this.at(0, 0), this.at(1, 1)];
      context.strokeStyle = context.fillStyle = view.palette.css("muted");
      context.lineWidth = 1;
      context.setLineDash([3, 4]);
      context.strokeRect(left, top, right - left, bottom - top);
      context.setLineDash([]);
      context.font = "11px system-ui, sans-serif";
      context.fillText("0, 0", left, bottom + 14);
      context.textAlign = "right";
      context.fillText("1, 1", right, top - 5);
      context.textAlign = "left";
    }

    drawFaces() {
      const { context, view, shape } = this;
      const { topology, textureCorners } = shape;
      const { charts } = chartsOf(shape);
      context.lineWidth = 0.7;
      context.strokeStyle = view.palette.css("text", topology.faceCount > 3000 ? 0.25 : 0.6);
      for (let face = 0; face < topology.faceCount; face++) {
        if (charts[face] < 0) continue;
        context.beginPath();
        for (let corner = topology.starts[face]; corner < topology.starts[face + 1]; corner++) {
          context.lineTo(...this.placeOf(textureCorners[corner]));
        }
        context.closePath();
        context.fillStyle = `${FILLS[charts[face] % FILLS.length]}66`;
        context.fill();
        if (this.state.layers.has("edges")) context.stroke();
      }
    }

    /** Draws the sides of faces at which charts end: seams dashed, and the boundary of the mesh as a whole line. */
    drawSeams() {
      const { topology, textureCorners, textured } = this.shape;
      const paths = { seams: new Path2D(), boundary: new Path2D() };
      this.seamCount = 0;
      for (let edge = 0; edge < topology.edges.count; edge++) {
        const isSeam = topology.isSeam(edge, textureCorners);
        if (!isSeam && !topology.isBoundary(edge)) continue;
        if (isSeam) this.seamCount++;
        for (let side = 0; side < (isSeam ? 2 : 1); side++) {
          const [face, corner] = [topology.edges.faces[2 * edge + side], topology.edges.begins[2 * edge + side]];
          if (textured && !textured[face]) continue;
          const path = paths[isSeam ? "seams" : "boundary"];
          path.moveTo(...this.placeOf(textureCorners[corner]));
          path.lineTo(...this.placeOf(textureCorners[topology.after(corner, face)]));
        }
      }
      for (const [layer, colour, dash] of [["boundary", "boundary", []], ["seams", "seam", [6, 4]]]) {
        if (!this.state.layers.has(layer)) continue;
        this.context.setLineDash(dash);
        this.context.strokeStyle = this.view.palette.css(colour);
        this.context.lineWidth = 2.4;
        this.context.stroke(paths[layer]);
      }
      this.context.setLineDash([]);
    }

    drawDots() {
      const { context, view, shape } = this;
      const used = this.usedValues();
      context.fillStyle = view.palette.css("text");
      this.valueCount = used.size;
      if (used.size <= MOST_DOTS) {
        for (const value of used) this.drawDot(this.placeOf(value), used.size > 400 ? 1.2 : 2.6);
      }
      context.strokeStyle = view.palette.css("chosen");
      context.lineWidth = 3;
      const { corners } = shape.topology;
      const chosen = new Set();
      for (let corner = 0; corner < corners.length; corner++) {
        if (corners[corner] === this.state.point) chosen.add(shape.textureCorners[corner]);
      }
      this.chosenCount = 0;
      for (const value of chosen) {
        if (!used.has(value)) continue;
        this.chosenCount++;
        context.beginPath();
        context.arc(...this.placeOf(value), 7, 0, 2 * Math.PI);
        context.stroke();
      }
    }

    drawDot([x, y], radius) {
      this.context.beginPath();
      this.context.arc(x, y, radius, 0, 2 * Math.PI);
      this.context.fill();
    }

    tell() {
      const { count } = chartsOf(this.shape);
      const number = (many, name) => `${many.toLocaleString("en")} ${name}${many === 1 ? "" : "s"}`;
      const words = [number(count, "chart"), number(this.valueCount, "value"), number(this.seamCount, "seam edge")];
      if (this.shape !== this.state.shown) words.push(`drawn by the faces of level ${this.shape.number}`);
      const facts = { charts: count, values: this.valueCount, seams: this.seamCount, chosen: this.chosenCount };
      this.describe(words.join(" · "), facts);
    }

    describe(text, facts) {
      this.caption.textContent = text;
      for (const [name, value] of Object.entries(facts)) this.canvas.dataset[name] = value;
    }
  }

  Object.assign(drillolive, { TexturePanel, chartsOf });
}
