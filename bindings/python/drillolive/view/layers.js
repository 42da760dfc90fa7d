"use strict";
/* The lines and the dots over the faces: edges by what they are, special points, limit points and the chosen point. */
{
  const { shapeFor, pointsOf, creaseStyle, SHAPES } = drillolive;
  const classesOfLevels = new WeakMap();

  /** Returns the edges of a level in classes: plain, creases by the place of their sharpness, boundary and seams. */
  const classesOf = (level) => {
    if (!classesOfLevels.has(level)) classesOfLevels.set(level, classify(level));
    return classesOfLevels.get(level);
  };

  const classify = (level) => {
    const { topology, tags } = level;
    const classes = { plain: [], creases: tags.sharpness.map(() => []), boundary: [], seams: [] };
    const isMarked = new Uint8Array(topology.edges.count);
    for (const { edge, place } of tags.creases) {
      classes.creases[place].push(edge);
      isMarked[edge] = 1;
    }
    const values = level.hasTexture ? level.textureCorners : null;
    for (let edge = 0; edge < topology.edges.count; edge++) {
      if (topology.isBoundary(edge)) classes.boundary.push(edge);
      else if (!isMarked[edge]) classes.plain.push(edge);
      if (values && topology.isSeam(edge, values)) classes.seams.push(edge);
    }
    return classes;
  };

  /** Returns the ends of edges, six numbers each. */
  const endsOf = (points, topology, edges) => {
    const ends = new Float32Array(6 * edges.length);
    const { low, high } = topology.edges;
    edges.forEach((edge, number) => {
      for (let axis = 0; axis < 3; axis++) {
        ends[6 * number + axis] = points[3 * low[edge] + axis];
        ends[6 * number + 3 + axis] = points[3 * high[edge] + axis];
      }
    });
    return ends;
  };

  /** Returns the points with these numbers. */
  const gathered = (points, numbers) =>
    Float32Array.from(numbers.flatMap((number) => [...points.subarray(3 * number, 3 * number + 3)]));

  const allEdges = (topology) => Array.from({ length: topology.edges.count }, (_, edge) => edge);

  /** Returns how many creases, boundary edges and seams a level has. */
  const edgeCounts = (level) => {
    const { creases, boundary, seams } = classesOf(level.shape);
    const creaseCount = creases.reduce((sum, list) => sum + list.length, 0);
    return { creases: creaseCount, boundary: boundary.length, seams: seams.length };
  };

  /** The lines and the dots of a state. A set has a key, what makes its numbers, and how it looks. */
  class Layers {
    constructor(state, mostFaces) {
      this.scene = state.scene;
      this.state = state;
      this.level = state.shown;
      this.shape = shapeFor(this.scene, this.level, mostFaces);
      // Sparse faces are some of the faces of the level, with the same points.
      this.surface = state.surface === "limit" ? "limit" : "level";
      this.points = pointsOf(this.scene, this.level, this.surface, this.shape);
      this.mark = `${this.level.number}:${this.shape.number}:${this.surface}`;
    }

    has(layer) {
      return this.state.layers.has(layer);
    }

    set(name, edges, style) {
      const make = () => endsOf(this.points, this.shape.topology, edges);
      return { key: `${name}:${this.mark}`, make, count: edges.length, style };
    }

    lines() {
      const classes = classesOf(this.shape);
      const sets = this.has("edges") ? this.edges(classes) : [];
      if (this.has("boundary")) sets.push(this.set("boundary", classes.boundary, { colour: "boundary", width: 3.2 }));
      if (this.has("creases")) {
        this.shape.tags.sharpness.forEach((sharpness, place) => {
          sets.push(this.set(`crease${place}`, classes.creases[place], creaseStyle(sharpness)));
        });
      }
      if (this.has("seams")) sets.push(this.set("seams", classes.seams, { colour: "seam", width: 2.6, dash: 6 }));
      if (this.has("cage") && this.level.number + (this.surface === "limit") > 0) sets.push(this.cage());
      if (this.showsLimit()) sets.push(this.stalks());
      return sets.filter((set) => set.count);
    }

    edges(classes) {
      const style = { colour: "edge", width: 1, isThin: true };
      if (this.state.surface !== "sparse") return [this.set("edges", classes.plain, style)];
      return [this.set("sparse", this.scene.sparse.edgesOf(this.shape.number), style)];
    }

    cage() {
      const { points, topology } = this.scene.levels[0];
      const style = { colour: "cage", width: 1.4, seenThrough: 0.22 };
      const make = () => endsOf(points, topology, allEdges(topology));
      return { key: "cage", count: topology.edges.count, make, style };
    }

    showsLimit() {
      return this.has("limit") && this.scene.limit && this.surface === "level";
    }

    /** Returns a line from each point to its limit point. */
    stalks() {
      const count = this.shape.topology.pointCount;
      const make = () => {
        const ends = new Float32Array(6 * count);
        for (let point = 0; point < count; point++) {
          ends.set(this.points.subarray(3 * point, 3 * point + 3), 6 * point);
          ends.set(this.scene.limit.subarray(3 * point, 3 * point + 3), 6 * point + 3);
        }
        return ends;
      };
      return { key: `stalks:${this.mark}`, count, make, style: { colour: "limit", width: 1.6, seenThrough: 0.7 } };
    }

    dots() {
      const sets = [];
      if (this.showsLimit()) {
        const make = () => this.scene.limit.subarray(0, this.points.length);
        const style = { colour: "limit", size: 8, shape: SHAPES.disc, seenThrough: 0.7 };
        sets.push({ key: `limit:${this.mark}`, make, count: this.points.length / 3, style });
      }
      if (this.has("special")) sets.push(...this.special());
      if (this.state.point !== null) sets.push(...this.chosen());
      const { hover, point } = this.state;
      const style = { colour: "hover", size: 15, shape: SHAPES.ring };
      if (hover !== null && hover !== point) sets.push(this.ring(hover, style));
      return sets.filter((set) => set.count);
    }

    special() {
      const { tags, topology } = this.shape;
      const sets = tags.sharpness.map((sharpness, place) => {
        const points = tags.points.filter((tag) => tag.place === place).map((tag) => tag.point);
        const { colour, width } = creaseStyle(sharpness);
        return this.dotsAt(`sharp${place}`, points, { colour, size: 6 + 2 * width, shape: SHAPES.disc });
      });
      const style = { colour: "extraordinary", size: 11, shape: SHAPES.diamond };
      return [...sets, this.dotsAt("extraordinary", topology.extraordinaryPoints, style)];
    }

    dotsAt(name, numbers, style) {
      const make = () => gathered(this.points, numbers);
      return { key: `${name}:${this.mark}`, make, count: numbers.length, style };
    }

    ring(number, style) {
      const held = this.dotsAt(`${style.colour}${number}`, number * 3 < this.points.length ? [number] : [], style);
      return { ...held, style: { ...style, seenThrough: 0.4 } };
    }

    /** Returns the chosen point, and the controls of its row: the larger the share, the larger the dot. */
    chosen() {
      const { point } = this.state;
      const ring = this.ring(point, { colour: "chosen", size: 19, shape: SHAPES.ring });
      if (!this.level.rows) return [ring];
      const entries = this.level.rows.row(point);
      const { points } = this.scene.levels[0];
      const controls = {
        key: `controls:${this.level.number}:${point}`, count: entries.length,
        make: () => gathered(points, entries.map(({ control }) => control)),
        sizes: Float32Array.from(entries, ({ share }) => 6 + 16 * Math.sqrt(Math.abs(share.toNumber()))),
        style: { colour: "control-point", shape: SHAPES.disc, seenThrough: 0.5 },
      };
      return [controls, ring];
    }
  }

  Object.assign(drillolive, { Layers, classesOf, edgeCounts });
}
