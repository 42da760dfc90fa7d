"use strict";
/* The scene of the page: its levels as typed arrays, which are unpacked when they are first asked for. */
{
  const { Topology, Rows, Controls, Sparse, NONE, unpacked } = drillolive;
  /** Calls the work once, and returns what it returned then each time. */
  const once = (work) => {
    let result;
    let isDone = false;
    return () => {
      if (!isDone) [result, isDone] = [work(), true];
      return result;
    };
  };

  const isInfinite = (word) => drillolive.Fraction.of(word).toNumber() >= 10;

  /** A level of the mesh. A thinned one has the faces and the tags of a level before it, its `shape`. */
  class Level {
    constructor(number, held, levels) {
      this.number = number;
      this.shape = held.shape === number ? this : levels[held.shape];
      this.isThinned = this.shape !== this;
      this.rows = held.rows === null ? null : new Rows(held.rows);
      this.hasTexture = held.texture !== null && (this.isThinned ? this.shape.hasTexture : true);
      const [points, values] = [once(() => unpacked(held.points)), once(() => unpacked(held.texture.values))];
      Object.defineProperty(this, "points", { get: points });
      Object.defineProperty(this, "values", { get: values });
      if (!this.isThinned) this.readFaces(held);
    }

    readFaces(held) {
      const topology = once(() => topologyOf(held, this.points));
      this.ownTopology = topology;
      this.ownTexture = once(() => unpacked(held.texture.corners));
      this.ownTextured = once(() => held.texture.textured && unpacked(held.texture.textured));
      this.ownTags = once(() => readTags(held, topology()));
      this.ownHoles = once(() => flagsOf(unpacked(held.holes), topology().faceCount));
    }

    get topology() {
      return this.shape.ownTopology();
    }

    /** For each corner the number of its texture value. */
    get textureCorners() {
      return this.shape.ownTexture();
    }

    /** For each face 1 where it has texture, or null where all have. */
    get textured() {
      return this.shape.ownTextured();
    }

    /** The creases by edge, and the sharp points, with the places of their sharpness in `sharpness`. */
    get tags() {
      return this.shape.ownTags();
    }

    /** For each face 1 where it is a hole, else 0. */
    get holes() {
      return this.shape.ownHoles();
    }

    get pointCount() {
      return this.points.length / 3;
    }
  }

  const topologyOf = ({ corners, sizes }, points) =>
    new Topology(unpacked(corners), sizes && unpacked(sizes), points.length / 3);

  const flagsOf = (numbers, count) => {
    const flags = new Uint8Array(count);
    for (const number of numbers) flags[number] = 1;
    return flags;
  };

  /** Returns the tags of a level: creases by their edges, sharp points by their numbers, and the sharpness of both. */
  const readTags = (held, topology) => {
    const [ends, places] = [unpacked(held.creases), unpacked(held.crease_sharpness)];
    const creases = [];
    places.forEach((place, number) => {
      const edge = topology.find(topology.edges, ends[2 * number], ends[2 * number + 1]);
      if (edge !== NONE) creases.push({ edge, place });
    });
    const sharpPlaces = unpacked(held.point_sharpness);
    const points = Array.from(unpacked(held.sharp_points), (point, number) => ({ point, place: sharpPlaces[number] }));
    const sharpness = held.sharpness.map((word) => ({ word, isInfinite: isInfinite(word) }));
    return { creases, points, sharpness };
  };

  /** All that the page shows. */
  class Scene {
    constructor(held) {
      Object.assign(this, { ...held, levels: [] });
      for (const level of held.levels) this.levels.push(new Level(this.levels.length, level, this.levels));
      this.sparse = held.sparse && new Sparse(held.sparse, this.levels);
      this.controls = held.controls === null ? null : new Controls(held.controls);
      const limit = once(() => unpacked(held.limit));
      Object.defineProperty(this, "limit", { get: () => (held.limit ? limit() : null) });
      this.hasTexture = this.levels.some((level) => level.hasTexture);
    }

    /** Returns the counts of a level by their names. */
    countsOf(number) {
      return Object.fromEntries(this.names.map((name, place) => [name, this.counts[number][place]]));
    }

    /** Returns a point of an array of the page in the units of the file. */
    inUnits(points, number) {
      return this.middle.map((middle, axis) => middle + this.radius * points[3 * number + axis]);
    }
  }

  Object.assign(drillolive, { Scene });
}
