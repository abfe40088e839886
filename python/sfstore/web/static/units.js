// Coordinates of the map: each step of the grid stands for one decimal number. Without a grid steps are shown as they are.

const DECIMAL = /^([+-]?)([0-9]*)(?:\.([0-9]*))?(?:[eE]([+-]?[0-9]{1,3}))?$/;

// How many digits a browser writes behind a point at most, and how many a double has.
const FRACTION_DIGITS = 20;
const DOUBLE_DIGITS = 15;
const DEGREE = "°";

/** A decimal as a whole number and how many of its digits stand behind the point. */
function decimal(text) {
  const [, sign, whole, fraction = "", power = "0"] = DECIMAL.exec(text);
  const digits = fraction.length - Number(power);
  const number = BigInt(`${whole}${fraction}` || "0") * (digits < 0 ? 10n ** BigInt(-digits) : 1n);
  return { number: sign === "-" ? -number : number, digits: Math.max(digits, 0) };
}

/** A whole number of which some digits stand behind the point. */
function withPoint(number, digits) {
  const text = String(number < 0n ? -number : number).padStart(digits + 1, "0");
  const at = text.length - digits;
  return `${number < 0n ? "-" : ""}${text.slice(0, at)}${digits ? `.${text.slice(at)}` : ""}`;
}

/** The double of a quotient of whole numbers, exact where it is whole: a double of each would be rounded. */
const quotient = (number, by) => Number(number / by) + Number(number % by) / Number(by);

/** The coordinates of a map: x and y of the origin and the step of its grid, as decimals. */
export class Units {
  constructor(grid) {
    const parts = (grid ? [grid.x, grid.y, grid.step] : ["0", "0", "1"]).map(decimal);
    this.digits = Math.max(...parts.map(({ digits }) => digits));
    const whole = parts.map(({ number, digits }) => number * 10n ** BigInt(this.digits - digits));
    this.origin = whole.slice(0, 2);
    this.step = whole[2];
    /** How long a step is, nearly. */
    this.size = Number(this.step) / 10 ** this.digits;
    this.system = grid?.crs ?? "";
    this.unit = grid?.unit ?? "";
    this.isMap = Boolean(grid);
  }

  /** The coordinates of a point of the grid, exact. */
  point([x, y]) {
    return [x, y].map((step, axis) => withPoint(this.origin[axis] + BigInt(step) * this.step, this.digits)).join(" ");
  }

  /** The coordinates of a place in steps, nearly. */
  near([x, y]) {
    return [x, y].map((step, axis) => Number(this.origin[axis]) / 10 ** this.digits + step * this.size);
  }

  /** The place of two coordinates as they are typed, in steps, which need not be whole. Nothing where they are none. */
  place(text) {
    const words = text.trim().split(/[\s,;]+/);
    if (words.length !== 2 || !words.every((word) => DECIMAL.test(word) && /[0-9]/.test(word))) return null;
    return words.map((word, axis) => {
      const { number, digits } = decimal(word);
      const [most, least] = [Math.max(digits, this.digits), Math.min(digits, this.digits)];
      const scale = 10n ** BigInt(most - least);
      const [ours, theirs] = digits < this.digits ? [1n, scale] : [scale, 1n];
      return quotient(number * theirs - this.origin[axis] * ours, this.step * ours);
    });
  }

  /** A length that was measured in steps, with a digit more than a step has. */
  length(steps) {
    return this.withUnit(this.#measured(steps * this.size));
  }

  /** An area that was measured in squared steps. */
  area(squaredSteps) {
    return this.withSquaredUnit(this.#measured(squaredSteps * this.size * this.size));
  }

  /** A measure for people. Of a grid as fine as atoms it has so many digits as a double has, since no number is written with all behind its point. */
  #measured(number) {
    const isFine = this.digits >= FRACTION_DIGITS;
    return number.toLocaleString("en", isFine ? { maximumSignificantDigits: DOUBLE_DIGITS } : { maximumFractionDigits: this.digits + 1 });
  }

  /** A length with its unit, where that is known. */
  withUnit(text) {
    return this.unit ? `${text} ${this.unit}` : text;
  }

  /** An area with its unit: one of angles has none. */
  withSquaredUnit(text) {
    return this.unit && this.unit !== DEGREE ? `${text} ${this.unit}²` : text;
  }
}
