"use strict";
/* Draws on a plain canvas, where there is no WebGL: the farthest faces first, and then lines that no face covers. */
{
  const { KIND, faceNormals, makeUnits, SHAPES } = drillolive;
  const LIGHT = [-0.35, 0.62, 0.7].map((x) => x / Math.hypot(-0.35, 0.62, 0.7));
  const NAMES = ["front", "hole", "outer", "selected", "leaf", "pale"];
  const CELL = 3; // how many pixels a cell of the grid of depths has each way
  const SLACK = 0.012; // how far behind the faces a line is seen still

  /** The least depth of the faces in each cell of a grid over the picture. */
  class DepthGrid {
    constructor(width, height) {
      this.columns = Math.ceil(width / CELL) + 1;
      this.rows = Math.ceil(height / CELL) + 1;
      this.depths = new Float32Array(this.columns * this.rows).fill(Infinity);
    }

    /** Adds a triangle of projected points: three numbers each, beginning at these places. */
    add(places, one, two, three) {
      const [ax, ay, bx, by, cx, cy] = [one, two, three].flatMap((at) => [places[at] / CELL, places[at + 1] / CELL]);
      const area = (bx - ax) * (cy - ay) - (cx - ax) * (by - ay);
      if (!area) return;
      const left = Math.max(0, Math.ceil(Math.min(ax, bx, cx)));
      const right = Math.min(this.columns - 1, Math.floor(Math.max(ax, bx, cx)));
      const top = Math.max(0, Math.ceil(Math.min(ay, by, cy)));
      const bottom = Math.min(this.rows - 1, Math.floor(Math.max(ay, by, cy)));
      for (let y = top; y <= bottom; y++) {
        for (let x = left; x <= right; x++) {
          const second = ((x - ax) * (cy - ay) - (cx - ax) * (y - ay)) / area;
          const third = ((bx - ax) * (y - ay) - (x - ax) * (by - ay)) / area;
          if (second < 0 || third < 0 || second + third > 1) continue;
          const depth = places[one + 2] * (1 - second - third) + places[two + 2] * second + places[three + 2] * third;
          const cell = y * this.columns + x;
          if (depth < this.depths[cell]) this.depths[cell] = depth;
        }
      }
    }

    isSeen(x, y, depth) {
      const [column, row] = [Math.round(x / CELL), Math.round(y / CELL)];
      if (column < 0 || row < 0 || column >= this.columns || row >= this.rows) return false;
      return depth < this.depths[row * this.columns + column] + SLACK;
    }
  }

  class CanvasRenderer {
    constructor(canvas) {
      this.canvas = canvas;
      this.context = canvas.getContext("2d");
      if (!this.context) throw new Error("there is no canvas");
      Object.assign(this, { name: "canvas", mostFaces: 30000, kept: null });
    }

    draw(camera, palette, picture) {
      const { canvas, context } = this;
      const ratio = Math.min(window.devicePixelRatio || 1, 2);
      canvas.width = Math.round(camera.width * ratio);
      canvas.height = Math.round(camera.height * ratio);
      context.setTransform(ratio, 0, 0, ratio, 0, 0);
      context.fillStyle = palette.css("ground");
      context.fillRect(0, 0, camera.width, camera.height);
      Object.assign(this, { camera, palette, grid: new DepthGrid(camera.width, camera.height) });
      const triangles = this.drawFaces(picture);
      const lines = picture.lines.reduce((sum, set) => sum + this.drawLines(set, picture.density), 0);
      const dots = picture.dots.reduce((sum, set) => sum + this.drawDots(set), 0);
      return { triangles, lines, dots };
    }

    /** Has nothing to wait for: the longest part of a drawing is done when it returns. */
    finish() {}

    /** Returns what is drawn with the unit normals of its faces, which are kept while the same faces are drawn. */
    partOf({ key, make }) {
      if (this.kept?.key !== key) {
        const part = make();
        const normals = faceNormals(part);
        makeUnits(normals);
        this.kept = { key, part: { ...part, normals } };
      }
      return this.kept.part;
    }

    drawFaces({ mesh, showsHoles }) {
      const part = this.partOf(mesh);
      const places = this.camera.project(part.points);
      const { starts, corners, faceCount } = part.topology;
      const listed = [];
      for (let face = 0; face < faceCount; face++) {
        if (part.kinds[face] === KIND.hole && !showsHoles) continue;
        const [start, end] = [starts[face], starts[face + 1]];
        let depth = 0;
        for (let corner = start; corner < end; corner++) depth += places[3 * corners[corner] + 2];
        listed.push({ part, places, face, start, end, depth: depth / (end - start) });
      }
      listed.sort((one, other) => other.depth - one.depth);
      for (const face of listed) this.drawFace(face);
      return corners.length - 2 * faceCount;
    }

    drawFace({ part, places, face, start, end }) {
      const { context, palette } = this;
      const corners = part.topology.corners;
      const at = (corner) => 3 * corners[corner];
      context.beginPath();
      for (let corner = start; corner < end; corner++) context.lineTo(places[at(corner)], places[at(corner) + 1]);
      context.closePath();
      if (part.kinds[face] === KIND.hole) {
        context.strokeStyle = palette.css("hole", 0.8);
        context.stroke();
        return;
      }
      for (let third = start + 2; third < end; third++) this.grid.add(places, at(start), at(third - 1), at(third));
      context.fillStyle = context.strokeStyle = this.shade(part, face, this.isFront(places, at, start, end));
      context.lineWidth = 0.7;
      context.fill();
      context.stroke();
    }

    /** Returns whether the corners of a face go round to the left in the picture. */
    isFront(places, at, start, end) {
      let area = 0;
      for (let corner = start; corner < end; corner++) {
        const [from, to] = [at(corner), at(corner + 1 < end ? corner + 1 : start)];
        area += places[from] * places[to + 1] - places[to] * places[from + 1];
      }
      return area < 0;
    }

    shade({ normals, kinds }, face, isFront) {
      const normal = [0, 1, 2].map((axis) => normals[3 * face + axis] * (isFront ? 1 : -1));
      const seen = this.camera.axes().map((vector) => vector.reduce((sum, x, axis) => sum + x * normal[axis], 0));
      const lit = Math.max(0, LIGHT.reduce((sum, x, axis) => sum + x * seen[axis], 0));
      const base = this.palette.of(isFront || kinds[face] ? NAMES[kinds[face]] : "back");
      return `rgb(${base.map((channel) => Math.round(Math.min(255, channel * (0.6 + 0.42 * lit)))).join(" ")})`;
    }

    drawLines({ make, style }, density) {
      const { context, palette, camera } = this;
      const ends = make();
      const places = camera.project(ends);
      const alphas = style.seenThrough ? [style.seenThrough, 1] : [style.isThin ? density : 1];
      for (const alpha of alphas) {
        context.strokeStyle = palette.css(style.colour, alpha);
        context.lineWidth = style.width;
        context.setLineDash(style.dash ? [style.dash, style.dash] : []);
        context.beginPath();
        for (let start = 0; start < places.length; start += 6) {
          const middle = [0, 1, 2].map((axis) => (places[start + axis] + places[start + 3 + axis]) / 2);
          if (alpha !== style.seenThrough && !this.grid.isSeen(...middle)) continue;
          context.moveTo(places[start], places[start + 1]);
          context.lineTo(places[start + 3], places[start + 4]);
        }
        context.stroke();
      }
      context.setLineDash([]);
      return ends.length / 6;
    }

    drawDots({ make, sizes, count, style }) {
      const { context, palette } = this;
      const places = this.camera.project(make());
      context.fillStyle = context.strokeStyle = palette.css(style.colour);
      for (let dot = 0; dot < count; dot++) {
        const [x, y, depth] = places.subarray(3 * dot, 3 * dot + 3);
        if (!style.seenThrough && !this.grid.isSeen(x, y, depth)) continue;
        this.drawDot(x, y, (sizes ? sizes[dot] : style.size) / 2, style.shape);
      }
      return count;
    }

    drawDot(x, y, radius, shape) {
      const { context } = this;
      context.beginPath();
      if (shape === SHAPES.diamond) {
        const tips = [[1, 0], [0, 1], [-1, 0], [0, -1]];
        for (const [right, down] of tips) context.lineTo(x + right * radius, y + down * radius);
        context.closePath();
      } else {
        context.arc(x, y, radius, 0, 2 * Math.PI);
      }
      context.lineWidth = 3;
      if (shape === SHAPES.ring) context.stroke();
      else context.fill();
    }
  }

  Object.assign(drillolive, { CanvasRenderer });
}
