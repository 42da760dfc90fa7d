"use strict";
/* The panel on the chosen point: its exact coordinates, and its row of the table. */
{
  const { element, pointOfRow } = drillolive;
  const AXES = ["x", "y", "z"];
  const MOST_ENTRIES = 400; // of a row that are listed

  const HINT = "Point at the mesh, click on a point, or press N. "
    + "Its exact coordinates and its row of the table stand here then.";
  const ROUNDED = "The rows of this level are left out, and the page has its points rounded.";

  const decimal = (number) => (Object.is(number, -0) ? 0 : Number(number.toPrecision(10))).toString();

  class PointPanel {
    constructor(state) {
      Object.assign(this, { state, scene: state.scene, shown: "" });
      this.place = document.getElementById("point-panel");
    }

    /** Returns the exact coordinates of a point and the entries of its row, or null where the page has none. */
    exact(point) {
      const { rows } = this.state.shown;
      if (!rows || !this.scene.controls) return null;
      const entries = rows.row(point);
      return { entries, coordinates: pointOfRow(entries, this.scene.controls) };
    }

    /** Shows the point that the pointer is at, or the chosen one. */
    update() {
      const { state } = this;
      const point = state.hover ?? state.point;
      const key = `${state.level} ${point}`;
      if (key === this.shown) return;
      this.shown = key;
      this.place.dataset.point = point ?? "";
      this.place.replaceChildren(...(point === null ? [this.hint()] : this.describe(point)));
    }

    hint() {
      return element("div", { class: "empty" }, HINT);
    }

    describe(point) {
      const head = element("h3", {}, `Point ${point} of level ${this.state.level}`);
      const exact = this.exact(point);
      if (!exact) {
        const near = this.scene.inUnits(this.state.shown.points, point);
        const cells = near.map((value, axis) => [AXES[axis], `≈ ${decimal(value)}`]);
        return [head, this.coordinates(cells), element("p", {}, ROUNDED)];
      }
      const { entries, coordinates } = exact;
      const cells = coordinates.map((value, axis) => [AXES[axis], String(value), decimal(value.toNumber())]);
      return [head, this.coordinates(cells), ...this.row(entries)];
    }

    coordinates(rows) {
      const cells = rows.map(([axis, word, near]) => {
        const exact = element("td", { class: "fraction", "data-axis": axis }, word);
        const row = element("tr", {}, element("th", { scope: "row" }, axis), exact);
        if (near !== undefined && near !== word) row.append(element("td", {}, near));
        return row;
      });
      const caption = element("caption", {}, "Coordinates, exact and near");
      return element("table", { class: "coordinates" }, caption, element("tbody", {}, ...cells));
    }

    row(entries) {
      const sorted = entries.map((entry) => ({ ...entry, size: entry.share.toNumber() }));
      sorted.sort((one, other) => other.size - one.size);
      const rows = sorted.slice(0, MOST_ENTRIES).map(({ control, share, size }) => {
        const bar = element("span", { class: "bar" });
        bar.style.width = `${Math.max(1, (100 * size) / sorted[0].size)}%`;
        const percent = `${(100 * size).toFixed(size < 0.001 ? 3 : 1)} %`;
        const exact = element("td", { class: "fraction" }, String(share));
        const near = [element("td", {}, percent), element("td", { class: "share" }, bar)];
        return element("tr", {}, element("td", {}, String(control)), exact, ...near);
      });
      const count = entries.length === 1 ? "1 control" : `${entries.length} controls`;
      const heads = ["Control", "Share", ""].map((word) => element("th", { scope: "col" }, word));
      const table = element("table", {}, element("caption", {}, `Its row of the table: ${count}, counted from 0`),
        element("thead", {}, element("tr", {}, ...heads, element("td"))), element("tbody", { id: "row" }, ...rows));
      const rest = entries.length - rows.length;
      return rest ? [table, element("p", {}, `${rest} smaller shares are not listed.`)] : [table];
    }

    /** Returns one sentence on a point, for the label at the pointer and for readers of the screen. */
    sentence(point) {
      const exact = this.exact(point);
      const words = exact ? exact.coordinates.map(String)
        : this.scene.inUnits(this.state.shown.points, point).map((value) => `≈ ${decimal(value)}`);
      return words.join("  ");
    }
  }

  Object.assign(drillolive, { PointPanel });
}
