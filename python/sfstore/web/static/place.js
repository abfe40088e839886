// Where on the map one is: the coordinates under the pointer, a place to go to, a scale bar, and a ruler's length.

import { byId } from "./dom.js";
import { GRID_MAX, GRID_MIN, onGrid } from "./geometry.js";
import { Units } from "./units.js";

// How wide the scale bar is at most.
const BAR_PIXELS = 140;
const KILOMETRE = 1_000;

/** A scale for people: three digits of it. */
export const scaleWords = (denominator) => (denominator < 1 ? denominator.toPrecision(2) : Number(denominator.toPrecision(3)).toLocaleString("en"));

export class Place {
  constructor(app) {
    this.app = app;
    this.units = new Units(null);
    const { svg } = app.view;
    svg.addEventListener("pointermove", (event) => this.#under(event));
    svg.addEventListener("pointerleave", () => this.#tellMiddle());
    byId("goto").onsubmit = (event) => {
      event.preventDefault();
      this.#go(byId("goto-text").value);
    };
  }

  /** Takes the grid of the map, or none. */
  setGrid(grid) {
    this.units = new Units(grid);
    byId("system").textContent = grid ? (grid.crs ?? "") : "grid steps";
    this.app.view.stepMetres = this.units.size * (grid?.metres ?? 1);
    this.follow();
  }

  /** Shows what the view has become. */
  follow() {
    if (!this.units) return;
    this.#tellMiddle();
    this.#drawBar();
  }

  /** The length of a line that is measured, and the area that it goes round, by doubles. */
  measured(points) {
    const steps = points.slice(1).map(([x, y], index) => Math.hypot(x - points[index][0], y - points[index][1]));
    const length = this.units.length(steps.reduce((sum, step) => sum + step, 0));
    if (points.length < 3) return `Length ${length}`;
    const doubled = points.reduce((sum, [x, y], index) => {
      const [a, b] = points[(index + 1) % points.length];
      // From the first point, so that large coordinates take no digits away.
      const [left, bottom] = points[0];
      return sum + (x - left) * (b - bottom) - (a - left) * (y - bottom);
    }, 0);
    return `Length ${length}, area inside ${this.units.area(Math.abs(doubled) / 2)}`;
  }

  #under(event) {
    const frame = this.app.view.svg.getBoundingClientRect();
    this.#tell(this.app.view.toPlane(event.clientX - frame.left, event.clientY - frame.top));
  }

  #tellMiddle() {
    this.#tell([this.app.view.x, this.app.view.y]);
  }

  #tell(place) {
    byId("pointer").textContent = this.units.point(onGrid(...place));
  }

  #go(text) {
    const place = this.units.place(text);
    if (!place) return this.app.tell("Two numbers are a place: x and y.");
    if (!place.every((step) => step >= GRID_MIN && step <= GRID_MAX)) return this.app.tell(`${text.trim()} lies outside of the grid.`);
    this.app.tell("");
    this.app.view.center(...place);
  }

  #drawBar() {
    byId("scale").textContent = `1:${scaleWords(this.app.view.denominator)}`;
    const { pixels, words } = barOf(this.app.view.scale, this.units);
    byId("bar").style.width = `${pixels}px`;
    byId("bar").textContent = words;
  }
}

/** How long a scale bar is in pixels, and what it stands for: the longest of 1, 2 and 5 of some power of ten that has room. */
export function barOf(scale, units) {
  const most = (BAR_PIXELS / scale) * units.size;
  const power = 10 ** Math.floor(Math.log10(most));
  const length = [5, 2, 1].map((times) => times * power).find((long) => long <= most);
  const words = (number) => number.toLocaleString("en", { maximumSignificantDigits: 1 });
  const isFar = units.unit === "m" && length >= KILOMETRE;
  return { pixels: (length / units.size) * scale, words: isFar ? `${words(length / KILOMETRE)} km` : units.withUnit(words(length)) };
}
