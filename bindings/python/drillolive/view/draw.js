"use strict";
/* The drawing of the mesh: what is drawn of a state, and when. */
{
  const { Layers, Palette, WebglRenderer, CanvasRenderer, Pace, partOf, shapeFor } = drillolive;
  const [FAINTEST, STRONGEST] = [0.1, 0.62]; // how much of the colour of thin edges is seen
  const MOST_FITTED = 30000; // points of a level that are brought into the picture one by one
  const SHORTEST = 2.5; // how many pixels an edge has at least where thin edges are drawn
  const REST = 150; // from the last motion to the drawing of all faces, in milliseconds

  /** Returns a renderer by WebGL, or on a plain canvas where there is none or that is asked for. */
  const rendererFor = (canvas, asked) => {
    if (asked !== "canvas") {
      try {
        return new WebglRenderer(canvas);
      } catch {
        // A canvas that was asked for WebGL in vain gives the other context still.
      }
    }
    return new CanvasRenderer(canvas);
  };

  class View {
    constructor(canvas, state) {
      Object.assign(this, { canvas, state, camera: state.camera, isAsked: false, timer: null, frames: 0 });
      this.renderer = rendererFor(canvas, state.renderer);
      this.pace = new Pace(this.renderer);
      this.readColours();
      new ResizeObserver(() => this.resize()).observe(canvas.parentElement);
      this.resize();
    }

    readColours() {
      this.palette = new Palette(document.documentElement);
    }

    resize() {
      const { clientWidth, clientHeight } = this.canvas;
      if (!clientWidth || !clientHeight) return;
      Object.assign(this.camera, { width: clientWidth, height: clientHeight });
      if (!this.state.hasOwnCamera) this.fit();
      // The browser lays out before it paints, and so the old picture is not stretched meanwhile.
      this.drawNow();
    }

    /** Brings the cage, or the level that is shown, into the picture. */
    fit() {
      const { scene, shown, layers } = this.state;
      // A level lies within its cage, which stands for it where it has many points.
      const isCageFitted = layers.has("cage") || shown.pointCount > MOST_FITTED;
      this.camera.fit(usedPoints(isCageFitted ? scene.levels[0] : shown));
    }

    /** Asks for one drawing with the next frame of the browser. */
    draw() {
      if (this.isAsked) return;
      this.isAsked = true;
      requestAnimationFrame(() => {
        this.isAsked = false;
        this.drawNow(this.state.isMoving);
        // Time runs from the drawing, since a slow one comes late after what the reader does.
        if (this.state.isMoving) this.timer ??= setTimeout(() => this.rest(), REST);
      });
    }

    /** Draws a motion of the camera: by a coarser level until it rests, where all faces take long. */
    move() {
      clearTimeout(this.timer);
      this.timer = null;
      this.state.isMoving = true;
      this.draw();
    }

    rest() {
      this.timer = null;
      if (this.shape(true) !== this.shape(false)) this.state.set({ isMoving: false });
      else this.state.isMoving = false;
    }

    /** Returns the level whose faces are drawn, in motion or at rest. */
    shape(isMoving) {
      return shapeFor(this.state.scene, this.state.shown, this.mostFaces(isMoving));
    }

    /** Returns how many faces are drawn at most, in motion or at rest. */
    mostFaces(isMoving) {
      const { mostFaces } = this.renderer;
      return isMoving ? Math.min(mostFaces, this.pace.mostFaces(this.paceKey)) : mostFaces;
    }

    get paceKey() {
      return `${this.state.surface}:${this.state.level}`;
    }

    picture(mostFaces) {
      const { state } = this;
      const layers = new Layers(state, mostFaces);
      const { surface, scene, shown } = state;
      const shape = shapeFor(scene, shown, mostFaces);
      const mesh = {
        key: `mesh:${surface}:${shown.number}:${shape.number}`,
        make: () => partOf(scene, shown, surface, mostFaces),
      };
      // A motion shows the edges, and shows them as strongly, as they are seen at rest.
      const length = this.edgeLength(this.shape(false));
      const lines = layers.lines().filter((set) => !set.style.isThin || length >= SHORTEST);
      const density = Math.max(FAINTEST, Math.min(STRONGEST, length / 26));
      const isFlat = state.shading === "flat";
      return { mesh, lines, dots: layers.dots(), density, isFlat, showsHoles: state.layers.has("holes") };
    }

    /** Returns about how many pixels an edge of a level has. */
    edgeLength(shape) {
      return (2 * this.camera.scale) / this.camera.distance / Math.sqrt(shape.topology.faceCount || 1);
    }

    /** Draws all faces, or those that are drawn in time while the view moves. */
    drawNow(isMoving = false) {
      const shape = this.shape(false);
      const draw = () => this.renderer.draw(this.camera, this.palette, this.picture(this.mostFaces(isMoving)));
      const isThinned = this.shape(isMoving) !== shape;
      const drawn = isThinned ? draw() : this.pace.measure(this.paceKey, shape.topology.faceCount, draw);
      const { level, surface } = this.state;
      const facts = { ...drawn, level, surface, renderer: this.renderer.name, frames: ++this.frames };
      for (const [name, value] of Object.entries(facts)) this.canvas.dataset[name] = value;
    }

    /** Returns the sentences on what is drawn by fewer faces or edges than there are, or an empty text. */
    thinning() {
      const { shown, layers, isMoving } = this.state;
      const [shape, whole] = [this.shape(isMoving), this.shape(false)];
      const isTooFine = layers.has("edges") && this.edgeLength(whole) < SHORTEST;
      const edges = isTooFine ? "Edges are too short to be drawn at this size: zoom in to see them." : "";
      return `${this.thinnedFaces(shown, shape, whole)} ${edges}`.trim();
    }

    thinnedFaces(shown, shape, whole) {
      if (shape === shown) return "";
      const reason = whole === shown.shape ? "" : " without WebGL";
      const time = shape === whole ? "" : " while the view moves";
      const count = shape.topology.faceCount.toLocaleString("en");
      return `Thinned: level ${shown.number} is drawn${reason} by the ${count} faces of level ${shape.number}${time}.`;
    }
  }

  /** Returns the points of a level that faces name. */
  const usedPoints = (level) => {
    const { corners } = level.topology;
    const isUsed = new Uint8Array(level.pointCount);
    for (const point of corners) isUsed[point] = 1;
    return level.points.filter((_, place) => isUsed[Math.floor(place / 3)]);
  };

  Object.assign(drillolive, { View });
}
