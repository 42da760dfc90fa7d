"use strict";
/* Exact fractions, and the rows of tables by which points are made of controls. */
{
  const gcd = (first, second) => {
    let [left, right] = [first < 0n ? -first : first, second];
    while (right) [left, right] = [right, left % right];
    return left;
  };

  /** A fraction in lowest terms, with a denominator above 0. */
  class Fraction {
    constructor(numerator, denominator = 1n) {
      const divisor = gcd(numerator, denominator) || 1n;
      this.numerator = numerator / divisor;
      this.denominator = denominator / divisor;
    }

    /** Returns the fraction of a word such as -5/9. */
    static of(word) {
      const [numerator, denominator] = word.split("/");
      return new Fraction(BigInt(numerator), BigInt(denominator ?? 1));
    }

    plus(other) {
      const numerator = this.numerator * other.denominator + other.numerator * this.denominator;
      return new Fraction(numerator, this.denominator * other.denominator);
    }

    times(other) {
      return new Fraction(this.numerator * other.numerator, this.denominator * other.denominator);
    }

    /** Returns the word, which has no denominator where that is 1. */
    toString() {
      return this.denominator === 1n ? `${this.numerator}` : `${this.numerator}/${this.denominator}`;
    }

    /** Returns a number near the fraction: rounded down in its 18th digit, and then to a double. */
    toNumber() {
      const { numerator, denominator } = this;
      if (numerator === 0n) return 0;
      const places = 18 - (`${numerator < 0n ? -numerator : numerator}`.length - `${denominator}`.length);
      const digits = places > 0 ? (numerator * 10n ** BigInt(places)) / denominator
        : numerator / (denominator * 10n ** BigInt(-places));
      return Number(`${digits}e${-places}`);
    }
  }

  /** The rows of a table, from its text: each line has a denominator, and by turns a control and a numerator. */
  class Rows {
    constructor(text) {
      this.text = text;
      this.lines = null;
    }

    /** Returns the entries of a row: each a control, counted from 0, and its share. */
    row(number) {
      this.lines ??= this.text.split("\n");
      const [, denominator, ...words] = this.lines[number].split(" ");
      const whole = BigInt(denominator);
      const entries = [];
      for (let place = 0; place < words.length; place += 2) {
        entries.push({ control: Number(words[place]), share: new Fraction(BigInt(words[place + 1]), whole) });
      }
      return entries;
    }
  }

  /** The exact points of the mesh, from their lines of three fractions. */
  class Controls {
    constructor(text) {
      this.lines = text.split("\n");
    }

    point(number) {
      return this.lines[number].split(" ").map(Fraction.of);
    }
  }

  /** Returns the three exact coordinates of the point of a row. */
  const pointOfRow = (entries, controls) => {
    let sums = [new Fraction(0n), new Fraction(0n), new Fraction(0n)];
    for (const { control, share } of entries) {
      const point = controls.point(control);
      sums = sums.map((sum, axis) => sum.plus(share.times(point[axis])));
    }
    return sums;
  };

  Object.assign(drillolive, { Fraction, Rows, Controls, pointOfRow });
}
