"use strict";
/* Puts the parts of the page together. */
{
  const { Scene, Camera, State, View, Picker, TexturePanel, Panels, PointPanel, Pointers, Keys } = drillolive;
  const part = (id) => document.getElementById(id);
  const GLIDE = 220; // how long the camera takes to the whole mesh, in milliseconds

  /** The page: its state, and the parts that show it. */
  class Page {
    constructor(scene) {
      this.state = new State(scene, new Camera());
      this.system = matchMedia("(prefers-color-scheme: dark)");
      this.state.readFragment(location.hash);
      this.applyTheme();
      this.view = new View(part("view"), this.state);
      this.picker = new Picker(this.view);
      this.panels = new Panels(this.state, this.view);
      this.pointPanel = new PointPanel(this.state);
      this.texture = new TexturePanel(part("texture"), part("texture-caption"), this.view);
      this.pointers = new Pointers(this);
      this.keys = new Keys(this);
      this.listen();
      this.update([]);
    }

    listen() {
      const { state } = this;
      state.listeners.push((changed) => this.update(changed));
      this.system.addEventListener("change", () => this.update(["theme"]));
      window.addEventListener("hashchange", () => this.follow());
      const click = (id, work) => part(id).addEventListener("click", work);
      click("fit", () => this.fit());
      click("theme", () => this.switchTheme());
      click("help-open", () => this.help());
      click("previous", () => this.next(-1));
      click("next", () => this.next(1));
      click("clear", () => this.choose(null));
      part("point").addEventListener("change", ({ target }) => {
        const last = state.shown.pointCount - 1;
        this.choose(target.value === "" ? null : Math.max(0, Math.min(Math.round(Number(target.value)), last)));
      });
    }

    /** Shows the state that the address has, where the reader has changed it. */
    follow() {
      if (this.state.toFragment() === location.hash.slice(1)) return;
      this.state.readFragment(location.hash);
      if (!this.state.hasOwnCamera) this.view.fit();
      this.update(["theme"]);
    }

    /** Shows the state. */
    update(changed) {
      if (changed.includes("theme")) this.applyTheme();
      if (changed.includes("hasOwnCamera")) this.view.move();
      this.panels.update();
      this.pointPanel.update();
      this.updatePointFields();
      this.view.draw();
      const isOfView = (name) => ["hasOwnCamera", "hover", "isMoving"].includes(name);
      if (!changed.every(isOfView) || !changed.length) this.texture.draw();
      this.describe();
    }

    updatePointFields() {
      const { point, shown } = this.state;
      const field = part("point");
      field.max = shown.pointCount - 1;
      if (document.activeElement !== field || point !== null) field.value = point ?? "";
      part("clear").disabled = point === null;
    }

    /** Says in words what the picture shows, for those who do not see it. */
    describe() {
      const { scene, level, surface, point } = this.state;
      const { faces } = scene.countsOf(level);
      const kind = surface === "level" ? "" : `, ${surface} faces`;
      part("view").setAttribute("aria-label", `${scene.name}, level ${level}${kind}: ${faces} faces`);
      const chosen = point === null ? "" : `. Point ${point}: ${this.pointPanel.sentence(point)}`;
      const text = `Level ${level}${kind}${chosen}`;
      if (part("announcement").textContent !== text) part("announcement").textContent = text;
    }

    applyTheme() {
      const theme = this.state.theme ?? (this.system.matches ? "dark" : "light");
      document.documentElement.dataset.theme = theme;
      part("theme").textContent = theme === "dark" ? "Light" : "Dark";
      this.view?.readColours();
    }

    switchTheme() {
      this.state.set({ theme: document.documentElement.dataset.theme === "dark" ? "light" : "dark" });
    }

    help() {
      part("help").showModal();
    }

    choose(point) {
      this.state.set({ point, hover: null });
    }

    next(step) {
      const { point, shown } = this.state;
      const count = shown.pointCount;
      this.choose(point === null ? (step > 0 ? 0 : count - 1) : (point + step + count) % count);
    }

    step(step) {
      const level = this.state.level + step;
      if (level >= 0 && level < this.state.scene.levels.length) this.state.set({ level });
    }

    nextSurface() {
      const surfaces = ["level", "sparse", "limit"].filter((surface) => this.state.hasSurface(surface));
      this.state.set({ surface: surfaces[(surfaces.indexOf(this.state.surface) + 1) % surfaces.length] });
    }

    toggle(layer) {
      const input = this.panels.boxes[layer];
      if (input && !input.disabled) this.state.toggle(layer);
      return true;
    }

    zoom(factor) {
      this.state.camera.zoom(factor);
      this.state.moved();
    }

    /** Brings the whole mesh into the picture, smoothly where the reader has nothing against motion. */
    fit() {
      const { camera } = this.state;
      const from = { distance: camera.distance, target: camera.target };
      this.view.fit();
      const to = { distance: camera.distance, target: camera.target };
      this.state.set({ hasOwnCamera: false });
      if (matchMedia("(prefers-reduced-motion: reduce)").matches) return;
      const began = performance.now();
      const glide = (now) => {
        const part = Math.max(0, Math.min(1, (now - began) / GLIDE));
        const weight = part * part * (3 - 2 * part);
        const between = (one, other) => one + weight * (other - one);
        if (this.state.hasOwnCamera) return;
        camera.distance = between(from.distance, to.distance);
        camera.target = to.target.map((value, axis) => between(from.target[axis], value));
        this.view.move();
        if (part < 1) requestAnimationFrame(glide);
      };
      glide(began);
    }

    /** Shows the label at the pointer, and the point there in its panel. */
    showTip(point, x, y) {
      const tip = part("tip");
      tip.hidden = point === null;
      if (point !== null) {
        tip.replaceChildren(drillolive.element("strong", {}, `Point ${point}`), this.pointPanel.sentence(point));
        const { clientWidth, clientHeight } = this.view.canvas;
        const left = Math.min(x + 16, clientWidth - tip.offsetWidth - 8);
        const top = y + 18 + tip.offsetHeight > clientHeight ? y - tip.offsetHeight - 12 : y + 18;
        tip.style.transform = `translate(${Math.max(left, 8)}px, ${Math.max(top, 8)}px)`;
      }
      if (point !== this.state.hover) this.state.set({ hover: point });
    }
  }

  drillolive.page = new Page(new Scene(JSON.parse(part("scene").textContent)));
  document.documentElement.dataset.ready = "yes";
}
