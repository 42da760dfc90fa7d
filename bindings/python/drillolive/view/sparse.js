"use strict";
/* The sparse levels: which faces of a level are among them, and which leaf of a level before is under the others. */
{
  const { unpacked } = drillolive;

  /** What a face is drawn as. Kinds from 1 on are told by the legend. */
  const KIND = { plain: 0, hole: 1, outer: 2, selected: 3, leaf: 4, pale: 5 };
  // The kinds of sparse faces in the order of their numbers in the scene.
  const SPARSE_KINDS = [KIND.hole, KIND.outer, KIND.selected, KIND.leaf];
  const LEVEL = 2 ** 32; // parts the numbers of leaves of one level from those of the next
  const NO_LEAF = -1;

  /** The sparse levels over the levels of a scene. The children of a face stand together in the next level. */
  class Sparse {
    constructor(held, levels) {
      Object.assign(this, { held, levels, kept: [], kindsKept: [], edgesKept: [] });
    }

    get length() {
      return this.held.length;
    }

    countOf(number) {
      return unpacked(this.held[number].numbers).length;
    }

    /** Returns for each face of a level the kind that it has as a sparse face, or 0. */
    kindsOf(number) {
      this.kindsKept[number] ??= this.readKinds(number);
      return this.kindsKept[number];
    }

    readKinds(number) {
      const kinds = new Uint8Array(this.levels[number].topology.faceCount);
      const { numbers, kinds: words } = this.held[number];
      const places = unpacked(numbers);
      unpacked(words).forEach((kind, place) => {
        kinds[places[place]] = SPARSE_KINDS[kind];
      });
      return kinds;
    }

    /** Returns for each face of a level its kind, or pale where it is none, and the leaf before under it. */
    facesOf(number) {
      this.kept[number] ??= this.makeFaces(number);
      return this.kept[number];
    }

    makeFaces(number) {
      const own = this.kindsOf(number);
      const kinds = own.map((kind) => kind || KIND.pale);
      const leaves = new Float64Array(own.length);
      for (let face = 0; face < own.length; face++) leaves[face] = own[face] ? NO_LEAF : this.leafUnder(number, face);
      return { kinds, leaves };
    }

    /** Returns a number for the leaf of a level before that has a face among its children's children. */
    leafUnder(number, face) {
      let ancestor = face;
      for (let level = number - 1; level >= 0; level--) {
        ancestor = level ? ancestor >>> 2 : this.faceOfCorner(ancestor);
        if (this.kindsOf(level)[ancestor] === KIND.leaf) return level * LEVEL + ancestor;
      }
      return NO_LEAF;
    }

    /** Returns the face of the mesh that has a corner: level 1 has one face for each corner. */
    faceOfCorner(corner) {
      this.facesOfCorners ??= this.readFacesOfCorners();
      return this.facesOfCorners[corner];
    }

    readFacesOfCorners() {
      const { starts, faceCount, corners } = this.levels[0].topology;
      const faces = new Uint32Array(corners.length);
      for (let face = 0; face < faceCount; face++) faces.fill(face, starts[face], starts[face + 1]);
      return faces;
    }

    /** Returns the edges of a level at sparse faces, and those between two leaves of levels before. */
    edgesOf(number) {
      this.edgesKept[number] ??= this.findEdges(number);
      return this.edgesKept[number];
    }

    findEdges(number) {
      const { leaves } = this.facesOf(number);
      const { topology } = this.levels[number];
      const found = [];
      for (let edge = 0; edge < topology.edges.count; edge++) {
        const [one, other] = [topology.edges.faces[2 * edge], topology.edges.faces[2 * edge + 1]];
        if (topology.isBoundary(edge) || leaves[one] !== leaves[other] || leaves[one] === NO_LEAF) found.push(edge);
      }
      return found;
    }
  }

  Object.assign(drillolive, { KIND, Sparse });
}
