"use strict";
/* The colours of the drawing, from the style sheet, and how lines and dots look. */
{
  const NAMES = [
    "ground", "front", "back", "cage", "edge", "boundary", "seam", "blunt", "sharp", "infinite", "extraordinary",
    "limit", "control-point", "chosen", "hover", "selected", "leaf", "outer", "pale", "hole", "text", "muted",
  ];
  const BLUNTEST = 5; // the sharpness from which on finite creases look alike

  /** Returns red, green and blue, each from 0 to 255, of a colour such as #0a5fb8. */
  const channels = (word) => [1, 3, 5].map((start) => parseInt(word.trim().slice(start, start + 2), 16));

  /** The colours of the theme that is shown. */
  class Palette {
    constructor(root) {
      const style = getComputedStyle(root);
      this.colours = Object.fromEntries(NAMES.map((name) => [name, channels(style.getPropertyValue(`--${name}`))]));
    }

    /** Returns the channels of a colour by its name, or of a sharpness: { value, isInfinite }. */
    of(colour) {
      if (typeof colour === "string") return this.colours[colour];
      if (colour.isInfinite) return this.colours.infinite;
      const part = Math.min(colour.value, BLUNTEST) / BLUNTEST;
      return this.colours.blunt.map((low, channel) => Math.round(low + part * (this.colours.sharp[channel] - low)));
    }

    css(colour, alpha = 1) {
      return `rgb(${this.of(colour).join(" ")} / ${alpha})`;
    }
  }

  /** Returns how the line of a crease looks: the sharper, the wider. */
  const creaseStyle = ({ word, isInfinite }) => {
    const value = drillolive.Fraction.of(word).toNumber();
    const width = isInfinite ? 5 : 2 + 2.4 * Math.min(value / BLUNTEST, 1);
    return { colour: { value, isInfinite }, width };
  };

  const SHAPES = { disc: 0, ring: 1, diamond: 2 };

  Object.assign(drillolive, { Palette, creaseStyle, SHAPES });
}
