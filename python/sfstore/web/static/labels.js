// Names beside what is drawn: a column's values, where there is room for them, and none over another.

import { drawn } from "./dom.js";
import { isArea } from "./geometry.js";
import { call } from "./server.js";

// Of a layer with more features than this in the window no labels are drawn: the scale has no room.
const LABELLED_MAX = 500;
// How many labels are drawn at most, and how far apart, in pixels.
const DRAWN_MAX = 400;
const APART_PIXELS = 3;
// How long the view rests before values are asked for.
const REST_MILLISECONDS = 150;
// How often an area is cut across to find where a label has room.
const CUTS = [0.5, 0.35, 0.65, 0.2, 0.8];
const FONT = "system-ui, sans-serif";

export class Labels {
  constructor(group, map, view) {
    this.group = group;
    this.map = map;
    this.view = view;
    this.pen = document.createElement("canvas").getContext("2d");
    // Of each layer the column whose values are known, and these.
    this.known = new Map();
    this.widths = new Map();
    this.texts = new Map();
  }

  /** Forgets values that may be others now: those of features, or of all. */
  forget(changed = null) {
    const isOfFeatures = changed?.every(({ layer, id }) => layer && id !== null);
    if (!isOfFeatures) this.known.clear();
    else for (const { layer, id } of changed) this.known.get(layer)?.values.delete(id);
    this.follow();
  }

  /** Draws what is known where the view has it now, and asks for the rest once the view rests. */
  follow() {
    this.drawing ??= requestAnimationFrame(() => {
      this.drawing = null;
      this.#draw();
    });
    clearTimeout(this.rest);
    this.rest = setTimeout(() => this.#ask(), REST_MILLISECONDS);
  }

  /** Asks for what is missing, and draws it. */
  async settle() {
    await this.#ask();
    this.#draw();
  }

  /** The layers with labels, the uppermost first, with their features in the window. */
  #labelled() {
    const seen = this.view.box();
    const isSeen = ({ box: [left, bottom, right, top] }) => left <= seen[2] && right >= seen[0] && bottom <= seen[3] && top >= seen[1];
    return this.map.visibleLayers
      .filter((layer) => layer.style.label && !layer.isCounted && layer.columns.some(({ name }) => name === layer.style.label))
      .map((layer) => ({ layer, features: [...layer.features.values()].filter(isSeen) }))
      .filter(({ features }) => features.length <= LABELLED_MAX)
      .reverse();
  }

  #valuesOf(layer) {
    const known = this.known.get(layer.name);
    if (known?.column === layer.style.label) return known.values;
    const values = new Map();
    this.known.set(layer.name, { column: layer.style.label, values });
    return values;
  }

  async #ask() {
    for (const { layer, features } of this.#labelled()) {
      const values = this.#valuesOf(layer);
      const ids = features.map(({ id }) => id).filter((id) => !values.has(id));
      if (!ids.length) continue;
      const answer = await call("labels", { layer: layer.name, column: layer.style.label, ids }).catch(() => null);
      if (!answer?.labels) continue;
      for (const id of ids) values.set(id, "");
      for (const [id, text] of answer.labels) values.set(id, text);
      this.follow();
    }
  }

  #draw() {
    const taken = [];
    const texts = new Map();
    for (const { layer, features } of this.#labelled()) {
      const values = this.#valuesOf(layer);
      for (const feature of features) {
        if (texts.size >= DRAWN_MAX) break;
        const text = values.get(feature.id);
        const spot = text && this.#spot(layer, feature, text, taken);
        if (!spot) continue;
        taken.push(spot.room);
        const key = `${layer.name} ${feature.id}`;
        texts.set(key, shownAs(this.texts.get(key) ?? drawn("text"), layer, text, spot));
      }
    }
    // Those that were there stay: it costs less to move a text than to make one.
    for (const [key, label] of this.texts) if (!texts.has(key)) label.remove();
    this.group.append(...[...texts.values()].filter((label) => !label.isConnected));
    this.texts = texts;
  }

  /** Where a label stands that has room, and the room that it takes. */
  #spot(layer, feature, text, taken) {
    const size = layer.style.labelSize;
    const wide = this.#width(text, size);
    const spots = isArea(feature.code) ? this.#inArea(feature, wide, size) : isPoints(feature.code) ? this.#besidePoint(layer, feature, wide, size) : this.#alongLine(feature, wide, size);
    return spots.find(({ room }) => !taken.some((other) => meet(room, other)));
  }

  #width(text, size) {
    const key = `${size} ${text}`;
    if (!this.widths.has(key)) {
      if (this.widths.size > 20_000) this.widths.clear();
      this.pen.font = `${size}px ${FONT}`;
      this.widths.set(key, this.pen.measureText(text).width);
    }
    return this.widths.get(key);
  }

  /** Beside a point: right, left, above or below. */
  #besidePoint(layer, { members }, wide, size) {
    const [left, top] = this.view.toPixels(members[0][0][0], members[0][0][1]);
    const far = layer.pointSize / 2 + 3;
    const places = [[far + wide / 2, 0], [-far - wide / 2, 0], [0, -far - size / 2], [0, far + size / 2]];
    return places.map(([x, y]) => spotAt(left + x, top + y, wide, size));
  }

  /** Along the longest edge of a line in the window, where that is longer than the label. */
  #alongLine({ members }, wide, size) {
    let best = null;
    for (const line of members.flat()) {
      for (let at = 2; at < line.length; at += 2) {
        const edge = this.#inWindow(this.view.toPixels(line[at - 2], line[at - 1]), this.view.toPixels(line[at], line[at + 1]));
        if (edge && edge.length > (best?.length ?? wide)) best = edge;
      }
    }
    if (!best) return [];
    const { from, to } = best;
    let angle = Math.atan2(to[1] - from[1], to[0] - from[0]);
    if (Math.abs(angle) > Math.PI / 2) angle -= Math.sign(angle) * Math.PI;
    return [spotAt((from[0] + to[0]) / 2, (from[1] + to[1]) / 2, wide, size, angle)];
  }

  /** The part of an edge that is in the window, with its length in pixels. */
  #inWindow(start, end) {
    let [first, last] = [0, 1];
    for (const [axis, most] of [[0, this.view.width], [1, this.view.height]]) {
      const step = end[axis] - start[axis];
      if (step === 0 && (start[axis] < 0 || start[axis] > most)) return null;
      if (step === 0) continue;
      const cuts = [-start[axis] / step, (most - start[axis]) / step];
      first = Math.max(first, Math.min(...cuts));
      last = Math.min(last, Math.max(...cuts));
    }
    if (first >= last) return null;
    const at = (part) => [0, 1].map((axis) => start[axis] + part * (end[axis] - start[axis]));
    return { from: at(first), to: at(last), length: (last - first) * Math.hypot(end[0] - start[0], end[1] - start[1]) };
  }

  /** Inside of an area: the widest stretch of some cuts across what the window has of it, where it is wide enough. */
  #inArea({ members, box }, wide, size) {
    const seen = this.view.box();
    const [bottom, top] = [Math.max(box[1], seen[1]), Math.min(box[3], seen[3])];
    if ((top - bottom) * this.view.scale < size) return [];
    const stretches = CUTS.map((part) => widest(members.flat(), bottom + part * (top - bottom), seen)).filter(Boolean);
    return stretches
      .filter(({ from, to }) => (to - from) * this.view.scale >= wide + APART_PIXELS)
      .map(({ from, to, y }) => spotAt(...this.view.toPixels((from + to) / 2, y), wide, size));
  }
}

const isPoints = (code) => code === 1 || code === 4;

/** The widest stretch of a level line that lies inside of rings and of a window. */
function widest(rings, y, [left, , right]) {
  const cuts = [];
  for (const ring of rings) {
    for (let at = 2; at < ring.length; at += 2) {
      const [ax, ay, bx, by] = ring.slice(at - 2, at + 2);
      if (ay > y !== by > y) cuts.push(ax + ((y - ay) / (by - ay)) * (bx - ax));
    }
  }
  cuts.sort((one, other) => one - other);
  let best = null;
  for (let at = 0; at + 1 < cuts.length; at += 2) {
    const [from, to] = [Math.max(left, cuts[at]), Math.min(right, cuts[at + 1])];
    if (to - from > (best ? best.to - best.from : 0)) best = { from, to, y };
  }
  return best;
}

/** A place of a label, by its middle, with the level box that it takes. */
function spotAt(x, y, wide, size, angle = 0) {
  const [cos, sin] = [Math.abs(Math.cos(angle)), Math.abs(Math.sin(angle))];
  const [halfWide, halfHigh] = [(wide * cos + size * sin) / 2 + APART_PIXELS, (wide * sin + size * cos) / 2 + APART_PIXELS];
  return { x, y, angle, room: [x - halfWide, y - halfHigh, x + halfWide, y + halfHigh] };
}

const meet = (one, other) => one[0] < other[2] && other[0] < one[2] && one[1] < other[3] && other[1] < one[3];

/** Has a text show a label at its place. */
function shownAs(label, layer, text, { x, y, angle }) {
  const turn = angle ? ` rotate(${((angle * 180) / Math.PI).toFixed(1)})` : "";
  label.setAttribute("transform", `translate(${x.toFixed(1)} ${y.toFixed(1)})${turn}`);
  const { labelSize, labelColour } = layer.style;
  if (label.textContent === text && label.size === labelSize && label.colour === labelColour) return label;
  label.setAttribute("font-size", labelSize);
  label.style.fill = labelColour ?? "";
  label.textContent = text;
  return Object.assign(label, { size: labelSize, colour: labelColour });
}
