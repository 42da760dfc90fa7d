"use strict";
/* What the page shows at the moment, and its words in the fragment of the address. */
{
  const LAYERS = ["cage", "edges", "creases", "boundary", "seams", "holes", "special", "limit", "texture"];
  const SHOWN_AT_FIRST = ["cage", "edges", "creases", "boundary", "seams", "holes", "texture"];
  const MOST_CAGE_FACES = 1500; // of a cage that is shown at first: a finer one hides the level
  const DELAY = 250; // of the address behind the state, in milliseconds
  const rounded = (number) => Number(number.toFixed(3));

  /** The state of the page. Each change goes to the listeners, which draw it. */
  class State {
    constructor(scene, camera) {
      this.scene = scene;
      this.camera = camera;
      this.level = scene.levels.length - 1;
      this.surface = "level";
      this.layers = new Set(SHOWN_AT_FIRST);
      if (scene.countsOf(0).faces > MOST_CAGE_FACES) this.layers.delete("cage");
      this.shading = "smooth";
      this.point = null;
      this.hover = null;
      this.theme = null; // that of the system, until the other is chosen
      this.hasOwnCamera = false; // until then the whole mesh is in the picture
      this.isMoving = false; // from a motion of the camera until shortly after it
      this.renderer = null;
      this.listeners = [];
      this.timer = null;
      camera.up = scene.up;
    }

    get shown() {
      return this.scene.levels[this.level];
    }

    /** Returns whether the level has something to show as these faces. */
    hasSurface(surface) {
      if (surface === "sparse") return Boolean(this.scene.sparse) && this.level < this.scene.sparse.length;
      return surface === "level" || Boolean(this.scene.limit);
    }

    set(changes) {
      Object.assign(this, changes);
      if (!this.hasSurface(this.surface)) this.surface = "level";
      if (this.point !== null && this.point >= this.shown.pointCount) this.point = null;
      if (this.hover !== null && this.hover >= this.shown.pointCount) this.hover = null;
      for (const listener of this.listeners) listener(Object.keys(changes));
      clearTimeout(this.timer);
      this.timer = setTimeout(() => this.writeFragment(), DELAY);
    }

    toggle(layer, isShown = !this.layers.has(layer)) {
      const layers = new Set(this.layers);
      if (isShown) layers.add(layer);
      else layers.delete(layer);
      this.set({ layers });
    }

    /** Tells the listeners that the camera was moved by the reader. */
    moved() {
      this.set({ hasOwnCamera: true });
    }

    toFragment() {
      const words = new URLSearchParams();
      words.set("level", this.level);
      words.set("surface", this.surface);
      words.set("layers", LAYERS.filter((layer) => this.layers.has(layer)).join(" "));
      words.set("up", this.camera.up);
      words.set("shading", this.shading);
      if (this.hasOwnCamera) {
        const { yaw, pitch, distance, target } = this.camera;
        words.set("camera", [yaw, pitch, distance, ...target].map(rounded).join(" "));
      }
      if (this.point !== null) words.set("point", this.point);
      if (this.theme) words.set("theme", this.theme);
      if (this.renderer) words.set("renderer", this.renderer);
      return words.toString();
    }

    writeFragment() {
      this.timer = null;
      try {
        history.replaceState(null, "", `#${this.toFragment()}`);
      } catch {
        // Some browsers refuse this for pages from files that change often; the next change tries again.
      }
    }

    /** Reads the words of a fragment. What is missing or wrong stays as it is. */
    readFragment(fragment) {
      const words = new URLSearchParams(fragment.replace(/^#/, ""));
      const changes = {};
      const level = wholeFrom(words.get("level"));
      if (level !== null && level < this.scene.levels.length) changes.level = level;
      if (["level", "sparse", "limit"].includes(words.get("surface"))) changes.surface = words.get("surface");
      const layers = words.get("layers")?.split(" ").filter((name) => LAYERS.includes(name));
      if (layers) changes.layers = new Set(layers);
      if (["smooth", "flat"].includes(words.get("shading"))) changes.shading = words.get("shading");
      if (["light", "dark"].includes(words.get("theme"))) changes.theme = words.get("theme");
      if (["webgl", "canvas"].includes(words.get("renderer"))) changes.renderer = words.get("renderer");
      if (["y", "z"].includes(words.get("up"))) this.camera.up = words.get("up");
      if (words.has("point")) changes.point = wholeFrom(words.get("point"));
      changes.hasOwnCamera = this.readCamera(words.get("camera"));
      this.set(changes);
    }

    readCamera(words) {
      const numbers = (words ?? "").split(" ").map(Number);
      if (numbers.length !== 6 || !numbers.every(Number.isFinite) || numbers[2] <= 0) return false;
      const [yaw, pitch, distance, ...target] = numbers;
      Object.assign(this.camera, { yaw, pitch: Math.max(-89, Math.min(89, pitch)), distance, target });
      return true;
    }
  }

  const wholeFrom = (word) => (/^\d{1,9}$/.test(word ?? "") ? Number(word) : null);

  Object.assign(drillolive, { State, LAYERS });
}
