"use strict";
/* The camera: it looks at a place from a side, and brings points to the picture. */
{
  const HALF_ANGLE = Math.tan((15 * Math.PI) / 180); // of what the camera sees along the shorter side of the picture
  const MARGIN = 1.12; // how much wider the picture is than what it shows
  const ROUNDS = 4;
  const STEEPEST = 89;
  const [NEAREST, FARTHEST] = [0.02, 60];

  const cross = (one, other) => [
    one[1] * other[2] - one[2] * other[1], one[2] * other[0] - one[0] * other[2], one[0] * other[1] - one[1] * other[0],
  ];

  /** Returns the least and the greatest of every third number from a place on. */
  const rangeOf = (numbers, first) => {
    let [least, greatest] = [Infinity, -Infinity];
    for (let place = first; place < numbers.length; place += 3) {
      least = Math.min(least, numbers[place]);
      greatest = Math.max(greatest, numbers[place]);
    }
    return [least, greatest];
  };

  class Camera {
    constructor() {
      this.yaw = 30;
      this.pitch = 22;
      this.distance = 4;
      this.target = [0, 0, 0];
      this.up = "y";
      this.width = this.height = 1;
    }

    /** Returns three unit vectors: to the right, up, and towards the eye. */
    axes() {
      const [yaw, pitch] = [(this.yaw * Math.PI) / 180, (this.pitch * Math.PI) / 180];
      const back = [Math.sin(yaw) * Math.cos(pitch), Math.sin(pitch), Math.cos(yaw) * Math.cos(pitch)];
      const right = [Math.cos(yaw), 0, -Math.sin(yaw)];
      const axes = [right, cross(back, right), back];
      return this.up === "y" ? axes : axes.map(([x, y, z]) => [x, -z, y]);
    }

    /** How many pixels a length of 1 has at the distance 1. */
    get scale() {
      return Math.min(this.width, this.height) / 2 / HALF_ANGLE;
    }

    /** Returns what takes a place to the picture: pixels from the left and the top, and the distance from the eye. */
    projector() {
      const [right, up, back] = this.axes();
      const { target, distance, scale, width, height } = this;
      return (points, start, result, place) => {
        const [x, y, z] = [points[start] - target[0], points[start + 1] - target[1], points[start + 2] - target[2]];
        const depth = distance - (x * back[0] + y * back[1] + z * back[2]);
        const factor = scale / Math.max(depth, 1e-6);
        result[place] = width / 2 + factor * (x * right[0] + y * right[1] + z * right[2]);
        result[place + 1] = height / 2 - factor * (x * up[0] + y * up[1] + z * up[2]);
        result[place + 2] = depth;
      };
    }

    /** Returns all points in the picture, three numbers each. */
    project(points) {
      const result = new Float32Array(points.length);
      const project = this.projector();
      for (let start = 0; start < points.length; start += 3) project(points, start, result, start);
      return result;
    }

    /** Returns the matrix that takes a place to the clip space of the graphics processor, column by column. */
    matrix() {
      const [right, up, back] = this.axes();
      const reach = 1.5 + Math.hypot(...this.target);
      const near = Math.max(this.distance - reach, this.distance * 0.02, 0.002);
      const far = this.distance + reach;
      const [across, along] = [(2 * this.scale) / this.width, (2 * this.scale) / this.height];
      const slope = (far + near) / (far - near);
      const factors = [[right, across], [up, along], [back, -slope], [back, -1]];
      const rows = factors.map(([vector, factor]) => vector.map((x) => x * factor));
      const shifts = rows.map((row) => -row.reduce((sum, x, axis) => sum + x * this.target[axis], 0));
      shifts[2] += this.distance * slope - (2 * far * near) / (far - near);
      shifts[3] += this.distance;
      return new Float32Array([0, 1, 2].flatMap((axis) => rows.map((row) => row[axis])).concat(shifts));
    }

    /** Moves the camera so that all points are in the picture, and the middle of what is seen in its middle. */
    fit(points) {
      if (!points.length) return;
      this.target = [0, 0, 0];
      this.distance = FARTHEST;
      for (let round = 0; round < ROUNDS; round++) {
        const places = this.project(points);
        const [left, right] = rangeOf(places, 0);
        const [top, bottom] = rangeOf(places, 1);
        this.move((this.width - left - right) / 2, (this.height - top - bottom) / 2);
        this.distance = this.distanceFor(points);
      }
    }

    /** Returns how far the eye has to be from the target so that it sees all points. */
    distanceFor(points) {
      const [wide, tall] = [this.width, this.height].map((length) => length / 2 / this.scale / MARGIN);
      const places = this.project(points);
      let distance = NEAREST;
      for (let start = 0; start < places.length; start += 3) {
        const depth = places[start + 2];
        const right = Math.abs(places[start] - this.width / 2) * (depth / this.scale);
        const up = Math.abs(places[start + 1] - this.height / 2) * (depth / this.scale);
        distance = Math.max(distance, this.distance - depth + Math.max(right / wide, up / tall));
      }
      return Math.min(distance, FARTHEST);
    }

    turn(right, up) {
      this.yaw = (((this.yaw - right) % 360) + 360) % 360;
      this.pitch = Math.max(-STEEPEST, Math.min(STEEPEST, this.pitch + up));
    }

    /** Moves what is seen by pixels to the right and down. */
    move(right, down) {
      const axes = this.axes();
      const length = this.distance / this.scale;
      this.target = this.target.map((value, axis) => value - length * (right * axes[0][axis] - down * axes[1][axis]));
    }

    /** Zooms so that what is seen becomes larger by a factor, about a place in pixels, or about the middle. */
    zoom(factor, x = this.width / 2, y = this.height / 2) {
      const [right, down] = [x - this.width / 2, y - this.height / 2];
      this.move(-right, -down);
      this.distance = Math.max(NEAREST, Math.min(FARTHEST, this.distance / factor));
      this.move(right, down);
    }
  }

  Object.assign(drillolive, { Camera });
}
