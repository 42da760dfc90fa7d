"use strict";
/* What the reader does: with a mouse or fingers on the picture, with keys, and in the fields of the point. */
{
  const { element } = drillolive;
  const [TURN, MOVE, ZOOM] = [5, 30, 1.15]; // of one key press: degrees, pixels, and a factor
  const DEGREES = 0.45; // for each pixel that a pointer is dragged
  const [CLICK, MOUSE_RADIUS, TOUCH_RADIUS] = [5, 18, 30]; // in pixels

  const KEYS = [
    ["← → ↑ ↓", "turn the mesh"], ["Shift + arrows", "move it"], ["+ −", "zoom"], ["F", "show the whole mesh"],
    ["[ ]", "the level before, or the next"], ["N P", "the next point, or the one before"], ["Esc", "choose no point"],
    ["V", "level, sparse or limit faces"], ["S", "smooth or flat"], ["U", "Y up or Z up"], ["T", "light or dark"],
    ["C E K B", "cage, edges, creases, boundary"], ["M H X L", "seams, holes, special points, limit points"],
    ["W", "the texture panel"], ["?", "this list"],
  ];
  const LAYER_KEYS = {
    c: "cage", e: "edges", k: "creases", b: "boundary", m: "seams", h: "holes", x: "special", l: "limit", w: "texture",
  };
  const ARROWS = { ArrowLeft: [-1, 0], ArrowRight: [1, 0], ArrowUp: [0, -1], ArrowDown: [0, 1] };

  /** Turns, moves and zooms by pointers. One turns, or moves with Shift or another button; two move and zoom. */
  class Pointers {
    constructor(page) {
      Object.assign(this, { page, canvas: page.view.canvas, camera: page.state.camera, held: new Map(), travelled: 0 });
      const listen = (name, work, options) => this.canvas.addEventListener(name, work.bind(this), options);
      listen("pointerdown", this.down);
      listen("pointermove", this.moved);
      listen("pointerup", this.up);
      listen("pointercancel", this.cancel);
      listen("pointerleave", this.leave);
      listen("wheel", this.wheel, { passive: false });
      listen("dblclick", () => page.fit());
      listen("contextmenu", (event) => event.preventDefault());
    }

    placeOf(event) {
      const box = this.canvas.getBoundingClientRect();
      return { x: event.clientX - box.left, y: event.clientY - box.top };
    }

    down(event) {
      this.held.set(event.pointerId, this.placeOf(event));
      if (this.held.size === 1) this.travelled = 0;
      else this.travelled = Infinity;
      try {
        this.canvas.setPointerCapture(event.pointerId);
      } catch {
        // A pointer that has gone meanwhile is not captured, and does not need to be.
      }
    }

    moved(event) {
      const before = this.held.get(event.pointerId);
      const place = this.placeOf(event);
      if (!before) return this.hover(event, place);
      const [right, down] = [place.x - before.x, place.y - before.y];
      this.travelled += Math.hypot(right, down);
      if (this.held.size === 2) this.pinch(event.pointerId, before, place);
      else if (this.travelled > CLICK) this.drag(event, right, down);
      this.held.set(event.pointerId, place);
    }

    drag(event, right, down) {
      if (event.shiftKey || event.buttons > 1) this.camera.move(right, down);
      else this.camera.turn(right * DEGREES, down * DEGREES);
      this.page.state.set({ hasOwnCamera: true, hover: null });
    }

    pinch(moving, before, place) {
      const other = [...this.held].find(([pointer]) => pointer !== moving)[1];
      const [old, now] = [before, place].map((one) => Math.hypot(one.x - other.x, one.y - other.y) || 1);
      this.camera.move((place.x - before.x) / 2, (place.y - before.y) / 2);
      this.camera.zoom(now / old, (place.x + other.x) / 2, (place.y + other.y) / 2);
      this.page.state.moved();
    }

    up(event) {
      const isClick = this.held.delete(event.pointerId) && this.travelled <= CLICK && event.button === 0;
      if (!isClick) return;
      const { x, y } = this.placeOf(event);
      const radius = event.pointerType === "touch" ? TOUCH_RADIUS : MOUSE_RADIUS;
      this.page.choose(this.page.picker.pointAt(x, y, radius));
    }

    cancel(event) {
      this.held.delete(event.pointerId);
    }

    leave() {
      this.page.showTip(null);
    }

    /** Looks for the point under the pointer, once for each frame. */
    hover(event, place) {
      if (event.pointerType === "touch") return;
      const isAsked = Boolean(this.hovered);
      this.hovered = place;
      if (isAsked) return;
      requestAnimationFrame(() => {
        const { x, y } = this.hovered;
        this.hovered = null;
        this.page.showTip(this.page.picker.pointAt(x, y, MOUSE_RADIUS), x, y);
      });
    }

    wheel(event) {
      event.preventDefault();
      const { x, y } = this.placeOf(event);
      const lines = event.deltaMode === 1 ? 30 : 1;
      this.camera.zoom(Math.exp(-event.deltaY * lines * 0.0016), x, y);
      this.page.state.moved();
    }
  }

  /** Does what keys say, wherever the focus is, but in fields that need the keys themselves. */
  class Keys {
    constructor(page) {
      this.page = page;
      document.addEventListener("keydown", (event) => this.press(event));
      for (const [keys, what] of KEYS) {
        const isPlus = (key) => key === "+" && keys.includes("Shift");
        const names = keys.split(" ").map((key) => (isPlus(key) ? key : element("kbd", {}, key)));
        const term = element("dt", {}, ...names.flatMap((name) => [name, " "]));
        document.getElementById("keys").append(term, element("dd", {}, what));
      }
    }

    press(event) {
      if (event.ctrlKey || event.altKey || event.metaKey || document.getElementById("help").open) return;
      const isField = event.target instanceof HTMLInputElement;
      const isText = isField && event.target.type === "number";
      if (isText && event.key !== "Escape") return;
      if (event.key in ARROWS && (isField || event.target.closest?.(".scroll, .point-panel"))) return;
      const key = event.key.length === 1 ? event.key.toLowerCase() : event.key;
      if (this.act(key, event.shiftKey)) event.preventDefault();
    }

    /** Does what a key says, and returns whether it says something. */
    act(key, isShift) {
      const { page } = this;
      const { state } = page;
      if (key in ARROWS) return this.arrow(...ARROWS[key], isShift);
      if (key in LAYER_KEYS) return page.toggle(LAYER_KEYS[key]);
      const actions = {
        "+": () => page.zoom(ZOOM), "=": () => page.zoom(ZOOM), "-": () => page.zoom(1 / ZOOM),
        f: () => page.fit(), Home: () => page.fit(),
        "[": () => page.step(-1), "]": () => page.step(1), PageUp: () => page.step(1), PageDown: () => page.step(-1),
        n: () => page.next(1), p: () => page.next(-1), Escape: () => page.choose(null), v: () => page.nextSurface(),
        s: () => state.set({ shading: state.shading === "smooth" ? "flat" : "smooth" }), t: () => page.switchTheme(),
        u: () => page.panels.setUp(state.camera.up === "y" ? "z" : "y"), "?": () => page.help(),
      };
      if (!Object.hasOwn(actions, key)) return false;
      actions[key]();
      return true;
    }

    arrow(right, down, isShift) {
      const { camera } = this.page.state;
      if (isShift) camera.move(right * MOVE, down * MOVE);
      else camera.turn(right * TURN, down * TURN);
      this.page.state.moved();
      return true;
    }
  }

  Object.assign(drillolive, { Pointers, Keys });
}
