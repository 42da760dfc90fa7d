"use strict";
/* How long drawings take, and how many faces are drawn in time while the view moves. */
{
  const LONGEST = 50; // of a drawing that follows a motion well, in milliseconds
  const FEWEST = 5000; // faces that are not thinned: it is not they that take the time

  /** Measures drawings of the whole level. Its limits are those above. */
  class Pace {
    constructor(renderer) {
      Object.assign(this, { renderer, longest: LONGEST, fewest: FEWEST, key: null, faceCount: 0, time: null });
    }

    /** Returns how many of the faces that a key names are drawn in time: all, where they were not found to be slow. */
    mostFaces(key) {
      const isSlow = this.key === key && this.time > this.longest;
      return isSlow ? Math.max(this.fewest, (this.faceCount * this.longest) / this.time) : Infinity;
    }

    /** Draws, and measures what may be slow. What was fast once is not waited for again. */
    measure(key, faceCount, draw) {
      if (faceCount <= this.fewest) return draw();
      if (this.key !== key) {
        // What is drawn for the first time is made as well, which says nothing of the times after it.
        Object.assign(this, { key, faceCount, time: null });
        return draw();
      }
      if (this.time !== null && this.time <= this.longest) return draw();
      this.renderer.finish();
      const began = performance.now();
      const drawn = draw();
      this.renderer.finish();
      this.time = performance.now() - began;
      return drawn;
    }
  }

  Object.assign(drillolive, { Pace });
}
