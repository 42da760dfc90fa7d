"use strict";
/* Finds the point of the level that is seen near a place of the picture. */
{
  const { shapeFor, pointsOf } = drillolive;
  const SLACK = 0.004; // how far behind a face a point is seen still
  const MOST_TRIED = 12;

  /** Finds points near places of the picture. What was projected is kept while the camera stands still. */
  class Picker {
    constructor(view) {
      this.view = view;
      this.kept = { key: null };
    }

    project() {
      const { camera, state, renderer } = this.view;
      const { scene, shown, surface } = state;
      const shape = shapeFor(scene, shown, renderer.mostFaces);
      const key = [shown.number, surface, camera.width, camera.height, ...camera.matrix()].join(" ");
      if (this.kept.key !== key) {
        const points = pointsOf(scene, shown, surface === "limit" ? "limit" : "level", shape);
        this.kept = { key, places: camera.project(points), topology: shape.topology, holes: shape.holes };
      }
      return this.kept;
    }

    /** Returns the number of the point that is seen nearest to a place, within so many pixels, or null. */
    pointAt(x, y, radius) {
      const { places } = this.project();
      const found = [];
      for (let start = 0; start < places.length; start += 3) {
        const distance = (places[start] - x) ** 2 + (places[start + 1] - y) ** 2;
        if (distance <= radius * radius) found.push({ start, distance: distance + 4 * places[start + 2] });
      }
      found.sort((one, other) => one.distance - other.distance);
      const seen = found.slice(0, MOST_TRIED).find(({ start }) => !this.isCovered(start));
      return seen ? seen.start / 3 : null;
    }

    /** Returns whether the corners of a face stand around a place, for most do not. */
    isAround(face, x, y) {
      const { places, topology } = this.kept;
      let [isLeft, isRight, isAbove, isBelow] = [false, false, false, false];
      for (let corner = topology.starts[face]; corner < topology.starts[face + 1]; corner++) {
        const at = 3 * topology.corners[corner];
        if (places[at] <= x) isLeft = true;
        if (places[at] >= x) isRight = true;
        if (places[at + 1] <= y) isAbove = true;
        if (places[at + 1] >= y) isBelow = true;
      }
      return isLeft && isRight && isAbove && isBelow;
    }

    /** Returns whether a face stands before a point. */
    isCovered(start) {
      const { places, topology, holes } = this.kept;
      const [x, y, depth] = places.subarray(start, start + 3);
      const { corners, starts } = topology;
      for (let face = 0; face < topology.faceCount; face++) {
        if (holes[face] || !this.isAround(face, x, y)) continue;
        const first = 3 * corners[starts[face]];
        for (let third = starts[face] + 2; third < starts[face + 1]; third++) {
          const at = depthAt(places, first, 3 * corners[third - 1], 3 * corners[third], x, y);
          if (at < depth - SLACK) return true;
        }
      }
      return false;
    }
  }

  /** Returns the depth of a projected triangle at a place, or infinity beside it. */
  const depthAt = (places, one, two, three, x, y) => {
    const [ax, ay] = [places[one] - x, places[one + 1] - y];
    const [bx, by] = [places[two] - x, places[two + 1] - y];
    const [cx, cy] = [places[three] - x, places[three + 1] - y];
    const [first, second, third] = [bx * cy - cx * by, cx * ay - ax * cy, ax * by - bx * ay];
    const area = first + second + third;
    if (!area || first * area < 0 || second * area < 0 || third * area < 0) return Infinity;
    // The inverse of the depth is what goes evenly over the picture.
    return area / (first / places[one + 2] + second / places[two + 2] + third / places[three + 2]);
  };

  Object.assign(drillolive, { Picker });
}
