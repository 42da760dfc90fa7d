"use strict";
/* What is drawn of a level: faces over points, and the triangles and normals that they become. */
{
  const { KIND } = drillolive;

  const SMALLEST_COSINE = 0.6; // of the normals of two faces that are shaded as one smooth surface
  const UNIT = 32767; // a length of 1 in the numbers of normals
  const WORDS = 7; // of 32 bits for each corner: three of its place, two of each normal

  /** Returns the level whose faces are drawn for a level, where no more than so many are to be drawn. */
  const shapeFor = (scene, level, mostFaces) => {
    let shape = level.shape;
    while (shape.number > 0 && shape.topology.faceCount > mostFaces) shape = scene.levels[shape.number - 1];
    return shape;
  };

  /** Returns the points of a level, or where they lie in the end, for the faces of a shape. */
  const pointsOf = (scene, level, surface, shape) => {
    const all = surface === "limit" ? scene.limit : level.points;
    return all.subarray(0, 3 * shape.topology.pointCount);
  };

  /** Returns what is drawn: points, a topology, and a kind for each face. */
  const partOf = (scene, level, surface, mostFaces) => {
    const shape = shapeFor(scene, level, mostFaces);
    const points = pointsOf(scene, level, surface, shape);
    return { points, topology: shape.topology, kinds: kindsOf(scene, surface, shape) };
  };

  const kindsOf = (scene, surface, shape) =>
    surface === "sparse" ? scene.sparse.facesOf(shape.number).kinds
      : shape.holes.map((isHole) => (isHole ? KIND.hole : KIND.plain));

  /** Returns the normal of each face, as long as twice its area, by Newell's rule. */
  const faceNormals = ({ points, topology }) => {
    const { corners, starts, faceCount } = topology;
    const normals = new Float32Array(3 * faceCount);
    for (let face = 0; face < faceCount; face++) {
      let [x, y, z] = [0, 0, 0];
      let from = 3 * corners[starts[face + 1] - 1];
      for (let corner = starts[face]; corner < starts[face + 1]; corner++) {
        const to = 3 * corners[corner];
        x += (points[from + 1] - points[to + 1]) * (points[from + 2] + points[to + 2]);
        y += (points[from + 2] - points[to + 2]) * (points[from] + points[to]);
        z += (points[from] - points[to]) * (points[from + 1] + points[to + 1]);
        from = to;
      }
      normals[3 * face] = x;
      normals[3 * face + 1] = y;
      normals[3 * face + 2] = z;
    }
    return normals;
  };

  /** Returns which faces stand at each point: where its faces begin in a list, and the list. */
  const facesAtPoints = ({ corners, starts, faceCount, pointCount }) => {
    const begins = new Uint32Array(pointCount + 1);
    for (const point of corners) begins[point + 1]++;
    for (let point = 0; point < pointCount; point++) begins[point + 1] += begins[point];
    const [faces, filled] = [new Uint32Array(corners.length), begins.slice()];
    for (let face = 0; face < faceCount; face++) {
      for (let corner = starts[face]; corner < starts[face + 1]; corner++) faces[filled[corners[corner]]++] = face;
    }
    return { begins, faces };
  };

  /** Returns the normal at each corner: that of the faces at its point that turn little away from its own face. */
  const cornerNormals = ({ topology }, areas, units) => {
    const { corners, starts, faceCount } = topology;
    const { begins, faces } = facesAtPoints(topology);
    const normals = new Float32Array(3 * corners.length);
    for (let face = 0; face < faceCount; face++) {
      const own = 3 * face;
      for (let corner = starts[face]; corner < starts[face + 1]; corner++) {
        for (let place = begins[corners[corner]]; place < begins[corners[corner] + 1]; place++) {
          const at = 3 * faces[place];
          const cosine = units[own] * units[at] + units[own + 1] * units[at + 1] + units[own + 2] * units[at + 2];
          if (cosine < SMALLEST_COSINE && at !== own) continue;
          normals[3 * corner] += areas[at];
          normals[3 * corner + 1] += areas[at + 1];
          normals[3 * corner + 2] += areas[at + 2];
        }
      }
    }
    makeUnits(normals);
    return normals;
  };

  const makeUnits = (vectors) => {
    for (let start = 0; start < vectors.length; start += 3) {
      const length = Math.sqrt(vectors[start] ** 2 + vectors[start + 1] ** 2 + vectors[start + 2] ** 2) || 1;
      for (let axis = 0; axis < 3; axis++) vectors[start + axis] /= length;
    }
  };

  /** Triangles for the graphics processor: a vertex for each corner, and three indices for each triangle. */
  class Mesh {
    constructor(part) {
      const { corners, faceCount } = part.topology;
      this.vertices = new ArrayBuffer(4 * WORDS * corners.length);
      this.floats = new Float32Array(this.vertices);
      this.shorts = new Int16Array(this.vertices);
      this.indices = new Uint32Array(3 * Math.max(corners.length - 2 * faceCount, 0));
      const areas = faceNormals(part);
      const flat = areas.slice();
      makeUnits(flat);
      this.add(part, flat, cornerNormals(part, areas, flat));
    }

    add(part, flat, smooth) {
      const { starts, faceCount } = part.topology;
      let index = 0;
      for (let face = 0; face < faceCount; face++) {
        const first = starts[face];
        for (let corner = first; corner < starts[face + 1]; corner++) {
          this.addCorner(part, face, corner, flat, smooth);
          if (corner < first + 2) continue;
          this.indices[index++] = first;
          this.indices[index++] = corner - 1;
          this.indices[index++] = corner;
        }
      }
    }

    addCorner({ points, topology, kinds }, face, corner, flat, smooth) {
      const [point, begin] = [3 * topology.corners[corner], WORDS * corner];
      for (let axis = 0; axis < 3; axis++) {
        this.floats[begin + axis] = points[point + axis];
        this.shorts[2 * begin + 6 + axis] = UNIT * flat[3 * face + axis];
        this.shorts[2 * begin + 10 + axis] = UNIT * smooth[3 * corner + axis];
      }
      this.shorts[2 * begin + 9] = kinds[face];
    }
  }

  Object.assign(drillolive, { Mesh, partOf, shapeFor, pointsOf, faceNormals, makeUnits });
}
