"use strict";
/* Faces that meet in edges: which edges there are, and what each one is. */
{
  const NONE = 0xffffffff;

  /** Returns where the corners of each face begin, and where those of the last end. */
  const startsOf = (corners, sizes) => {
    const count = sizes ? sizes.length : corners.length / 4;
    const starts = new Uint32Array(count + 1);
    for (let face = 0; face < count; face++) starts[face + 1] = starts[face] + (sizes ? sizes[face] : 4);
    return starts;
  };

  /** Faces over points: corners face by face, and the edges between them. */
  class Topology {
    constructor(corners, sizes, pointCount) {
      this.corners = corners;
      this.starts = startsOf(corners, sizes);
      this.faceCount = this.starts.length - 1;
      this.pointCount = pointCount;
      this.made = null;
    }

    /** Returns the place of the corner behind a corner of a face. */
    after(corner, face) {
      return corner + 1 < this.starts[face + 1] ? corner + 1 : this.starts[face];
    }

    /** The edges: both ends, both faces, and in each face the corner at which the edge begins. */
    get edges() {
      this.made ??= this.makeEdges();
      return this.made;
    }

    makeEdges() {
      const most = this.corners.length;
      const first = new Uint32Array(this.pointCount).fill(NONE);
      const edges = {
        count: 0, first, following: new Uint32Array(most), low: new Uint32Array(most), high: new Uint32Array(most),
        faces: new Uint32Array(2 * most).fill(NONE), begins: new Uint32Array(2 * most),
      };
      for (let face = 0; face < this.faceCount; face++) {
        const [first, end] = [this.starts[face], this.starts[face + 1]];
        for (let corner = first; corner < end; corner++) this.addSide(edges, face, corner);
      }
      return edges;
    }

    addSide(edges, face, corner) {
      const from = this.corners[corner];
      const to = this.corners[this.after(corner, face)];
      let edge = this.find(edges, from, to);
      if (edge === NONE) {
        edge = edges.count++;
        edges.low[edge] = Math.min(from, to);
        edges.high[edge] = Math.max(from, to);
        edges.following[edge] = edges.first[edges.low[edge]];
        edges.first[edges.low[edge]] = edge;
      }
      const side = edges.faces[2 * edge] === NONE ? 0 : 1;
      edges.faces[2 * edge + side] = face;
      edges.begins[2 * edge + side] = corner;
    }

    /** Returns the edge between two points, or NONE. */
    find(edges, from, to) {
      const high = Math.max(from, to);
      let edge = edges.first[Math.min(from, to)];
      while (edge !== NONE && edges.high[edge] !== high) edge = edges.following[edge];
      return edge;
    }

    isBoundary(edge) {
      return this.edges.faces[2 * edge + 1] === NONE;
    }

    /** Returns whether the texture values of the two faces of an edge differ at one of its ends. */
    isSeam(edge, values) {
      if (this.isBoundary(edge)) return false;
      const { faces, begins } = this.edges;
      const [one, other] = [begins[2 * edge], begins[2 * edge + 1]];
      const oneEnd = this.after(one, faces[2 * edge]);
      const otherEnd = this.after(other, faces[2 * edge + 1]);
      return values[one] !== values[otherEnd] || values[oneEnd] !== values[other];
    }

    /** The points inside the mesh that have another number of edges than four. */
    get extraordinaryPoints() {
      this.extraordinary ??= this.findExtraordinaryPoints();
      return this.extraordinary;
    }

    findExtraordinaryPoints() {
      const counts = new Uint32Array(this.pointCount);
      const isAtBoundary = new Uint8Array(this.pointCount);
      for (let edge = 0; edge < this.edges.count; edge++) {
        const [low, high] = [this.edges.low[edge], this.edges.high[edge]];
        counts[low]++;
        counts[high]++;
        if (this.isBoundary(edge)) isAtBoundary[low] = isAtBoundary[high] = 1;
      }
      const found = [];
      counts.forEach((count, point) => {
        if (count && count !== 4 && !isAtBoundary[point]) found.push(point);
      });
      return found;
    }
  }

  Object.assign(drillolive, { Topology, NONE });
}
