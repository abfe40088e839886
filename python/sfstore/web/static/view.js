// Which part of the plane is seen, and the mouse, touch and keys that move it.

import { GRID_MAX, GRID_MIN } from "./geometry.js";
import { scaleOf } from "./styles.js";

// Pixels for a grid step: from the whole grid in a few pixels to a step as wide as a hand.
const SCALE_MIN = 1e-5;
const SCALE_MAX = 200;
// How far a pointer moves before it drags, and does not click.
const DRAG_PIXELS = 4;
// At which scale a feature is shown that is a point, or small.
const FEATURE_SCALE = 500;

/** The window through which the plane is seen. y goes upwards in the plane, downwards in pixels. */
export class View {
  constructor(svg, onChange) {
    this.svg = svg;
    this.onChange = onChange;
    this.x = 0;
    this.y = 0;
    this.scale = 1;
    /** How many metres a grid step is, as far as that is known. */
    this.stepMetres = 1;
    this.isFixed = false;
    this.width = this.height = 1;
    new ResizeObserver(() => this.measure()).observe(svg);
    this.measure();
  }

  /** The scale of the map, as the denominator of a fraction: 500 for 1:500. */
  get denominator() {
    return scaleOf(this.scale / this.stepMetres);
  }

  measure() {
    // A sheet that is printed has the map as it is on the screen, on paper of another size.
    if (this.isFixed) return;
    const { width, height } = this.svg.getBoundingClientRect();
    this.width = Math.max(1, width);
    this.height = Math.max(1, height);
    this.onChange();
  }

  /** Has the view a size of its own, which the element shows scaled, until it is released. */
  fix(width, height) {
    this.isFixed = true;
    this.svg.setAttribute("viewBox", `0 0 ${width} ${height}`);
    [this.width, this.height] = [width, height];
    this.onChange();
  }

  release() {
    this.isFixed = false;
    this.svg.removeAttribute("viewBox");
    this.measure();
  }

  toPixels(x, y) {
    return [this.width / 2 + (x - this.x) * this.scale, this.height / 2 - (y - this.y) * this.scale];
  }

  toPlane(left, top) {
    return [this.x + (left - this.width / 2) / this.scale, this.y - (top - this.height / 2) / this.scale];
  }

  /** The box that is seen, with a margin of a part of its sides. */
  box(margin = 0) {
    const wide = (this.width / this.scale) * (0.5 + margin);
    const high = (this.height / this.scale) * (0.5 + margin);
    return [this.x - wide, this.y - high, this.x + wide, this.y + high];
  }

  /** Shows a place in the middle. */
  center(x, y) {
    this.#look(x, y, this.scale);
  }

  pan(left, top) {
    this.#look(this.x - left / this.scale, this.y + top / this.scale, this.scale);
  }

  panSteps(x, y) {
    this.#look(Math.round(this.x) + x, Math.round(this.y) + y, this.scale);
  }

  /** Zooms, so that what is under a pixel stays there. */
  zoom(factor, left = this.width / 2, top = this.height / 2) {
    const scale = Math.min(SCALE_MAX, Math.max(SCALE_MIN, this.scale * factor));
    const [x, y] = this.toPlane(left, top);
    const kept = this.scale / scale;
    this.#look(x + (this.x - x) * kept, y + (this.y - y) * kept, scale);
  }

  /** Shows a box with something around it, at no larger a scale than one to the denominator ``nearest``. */
  fit([left, bottom, right, top], nearest = 0) {
    const wide = Math.max(right - left, 1) * 1.1;
    const high = Math.max(top - bottom, 1) * 1.1;
    // As many pixels for a step as a map of that scale has: of two scales the products with their denominators are the same.
    const most = nearest ? (this.scale * this.denominator) / nearest : SCALE_MAX;
    const scale = Math.min(this.width / wide, this.height / high, SCALE_MAX / 8, most);
    this.#look((left + right) / 2, (bottom + top) / 2, Math.max(SCALE_MIN, scale));
  }

  /** Shows a feature with what is around it: a point, or what is small, as near as the map was seen before, and at least at 1:500. */
  fitFeature(box) {
    this.fit(box, Math.min(FEATURE_SCALE, this.denominator));
  }

  #look(x, y, scale) {
    const kept = (value) => Math.min(GRID_MAX, Math.max(GRID_MIN, value));
    [this.x, this.y, this.scale] = [kept(x), kept(y), scale];
    this.onChange();
  }
}

/** Has the mouse and fingers move a view. Clicks, and drags that a tool wants, go to `hand`. */
export function followPointers(svg, view, hand) {
  const pointers = new Map();
  let gesture = null;

  const places = () => [...pointers.values()];
  const at = (event) => {
    const frame = svg.getBoundingClientRect();
    return [event.clientX - frame.left, event.clientY - frame.top];
  };

  svg.addEventListener("pointerdown", (event) => {
    if (event.button !== 0) return;
    svg.setPointerCapture(event.pointerId);
    pointers.set(event.pointerId, at(event));
    if (pointers.size === 1) gesture = { from: at(event), drag: hand.grab(event, at(event)), moved: false };
    else gesture?.drag?.cancel();
    if (pointers.size > 1) gesture = { moved: true };
  });

  svg.addEventListener("pointermove", (event) => {
    const [left, top] = at(event);
    const before = pointers.get(event.pointerId);
    if (!before || !gesture) return hand.hover(event, [left, top]);
    if (pointers.size === 2) return pinch(view, places(), before, [left, top], () => pointers.set(event.pointerId, [left, top]));
    pointers.set(event.pointerId, [left, top]);
    gesture.moved ||= Math.hypot(left - gesture.from?.[0], top - gesture.from?.[1]) > DRAG_PIXELS;
    if (!gesture.moved) return;
    if (gesture.drag) gesture.drag.move(event, [left, top]);
    else view.pan(left - before[0], top - before[1]);
  });

  const end = (event) => {
    if (!pointers.delete(event.pointerId) || pointers.size) return;
    const ended = gesture;
    gesture = null;
    if (event.type === "pointercancel") ended?.drag?.cancel();
    else if (ended?.drag && ended.moved) ended.drag.end(event, at(event));
    else if (ended && !ended.moved) ended.drag ? ended.drag.tap(event, at(event)) : hand.click(event, at(event));
  };
  svg.addEventListener("pointerup", end);
  svg.addEventListener("pointercancel", end);

  svg.addEventListener("wheel", (event) => {
    event.preventDefault();
    view.zoom(1.0015 ** -event.deltaY, ...at(event));
  }, { passive: false });
}

/** Moves and zooms a view by two fingers, of which one moves. */
function pinch(view, both, before, after, keep) {
  const other = both.find((place) => place !== before);
  const length = (place) => Math.max(1, Math.hypot(place[0] - other[0], place[1] - other[1]));
  const middle = (place) => [(place[0] + other[0]) / 2, (place[1] + other[1]) / 2];
  const [from, to] = [middle(before), middle(after)];
  view.pan(to[0] - from[0], to[1] - from[1]);
  view.zoom(length(after) / length(before), ...to);
  keep();
}
