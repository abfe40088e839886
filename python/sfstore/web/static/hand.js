// What the mouse, a finger or the cross in the middle does on the map, by the tool that is chosen.

import { byId, renameIn } from "./dom.js";
import { onGrid, rectangle, wktOf } from "./geometry.js";

// How near, in pixels, a place is to what is meant.
const REACH_PIXELS = 8;
const SNAP_PIXELS = 10;

const CODES = { point: 1, line: 2, polygon: 3, "ask-polygon": 3, measure: 2, split: 2, border: 2, hole: 3 };
const HINTS = {
  point: "Click where the point is.",
  line: "Click from corner to corner; Enter, or a click on the last one, ends it.",
  polygon: "Click from corner to corner; Enter, or a click on the first one, ends it.",
  measure: "Click from place to place; Enter, or a click on the last one, ends it.",
};
const LEAST_POINTS = { point: 1, line: 2, polygon: 3, "ask-polygon": 3, measure: 2, split: 2, border: 2, hole: 3 };

// Tools that change nothing.
const ASKING = new Set(["ask-polygon", "measure"]);

export class Hand {
  constructor(app) {
    this.app = app;
    this.tool = "select";
    this.points = [];
    for (const button of this.#buttons()) button.onclick = () => this.setTool(button.dataset.tool);
    byId("target").onchange = () => this.setTool(this.tool);
  }

  #buttons() {
    return document.querySelectorAll("button[data-tool]");
  }

  setTool(tool) {
    this.tool = tool;
    this.giveUp();
    for (const button of this.#buttons()) button.setAttribute("aria-pressed", String(button.dataset.tool === tool));
    this.app.view.svg.dataset.tool = tool;
    if (this.app.drawing.has(tool)) this.app.drawing.begin(tool);
    else this.app.tell(HINTS[tool] ?? "");
  }

  /** Offers the layers that take what can be drawn. */
  setLayers(layers) {
    const target = byId("target");
    const isFirst = !target.options.length;
    const chosen = target.value;
    target.replaceChildren(...layers.map(({ name, kind }) => new Option(`${name} (${kind})`, name)));
    // Where the one that was chosen has gone, none is: what is being drawn was meant for that one.
    if (!isFirst) target.value = chosen;
  }

  /** Whether something is drawn that was not sent. */
  get hasDrawn() {
    return this.points.length > 0 && !ASKING.has(this.tool);
  }

  /** Follows a layer to another name: what is being drawn is meant for it, which has this name since a version of the store. */
  rename(before, after, version) {
    const { drawing } = this.app;
    if (byId("target").value === before && drawing.since !== null) drawing.since = version ?? drawing.since;
    renameIn(byId("target"), before, after);
  }

  /** Lets go of the layer for which something is being drawn, where it is among what is changed: another one may have its name. */
  miss(changed) {
    const target = byId("target");
    if (this.hasDrawn && changed?.some(({ what, layer }) => what === "layers" && layer === target.value)) target.value = "";
  }

  /** What a drag that begins here is for: a vertex, a box to ask about, or nothing but moving the map. */
  grab(event, place) {
    const handle = event.target.closest(".handle");
    if (handle && this.tool === "select") return this.#dragVertex(handle);
    return this.tool === "ask-box" ? this.#dragBox(place) : null;
  }

  #dragVertex(handle) {
    const { selection } = this.app;
    selection.take(handle);
    return {
      move: (event, place) => selection.try(handle, this.#meant(event, place, selection.place)),
      end: () => selection.keep(handle),
      cancel: () => selection.giveUp(),
      tap: () => handle.focus(),
    };
  }

  #dragBox(from) {
    const { overlay, view, asking } = this.app;
    const corners = (place) => {
      const [[ax, ay], [bx, by]] = [from, place].map((pixel) => onGrid(...view.toPlane(...pixel)));
      return rectangle([Math.min(ax, bx), Math.min(ay, by), Math.max(ax, bx), Math.max(ay, by)]);
    };
    return {
      move: (event, place) => overlay.show("sketch", ring(corners(place))),
      end: (event, place) => {
        overlay.show("sketch", null);
        asking.askAbout(wktOf("polygon", corners(place), this.app.place.units), ring(corners(place)));
      },
      cancel: () => overlay.show("sketch", null),
      tap: (event, place) => {
        const point = onGrid(...view.toPlane(...place));
        asking.askAbout(wktOf("point", [point], this.app.place.units), { code: 1, members: [[point]] });
      },
    };
  }

  /** The point of the grid that is meant by a pixel. */
  #meant(event, place, except) {
    const { map, view } = this.app;
    const [x, y] = view.toPlane(...place);
    return event.altKey ? onGrid(x, y) : map.snap(x, y, SNAP_PIXELS / view.scale, except);
  }

  hover(event, place) {
    this.app.drawing.hover(this.#meant(event, place));
    if (!this.points.length) return;
    this.#sketch(this.#meant(event, place));
  }

  click(event, place) {
    const { map, selection, view } = this.app;
    if (this.tool === "select") {
      const [x, y] = view.toPlane(...place);
      selection.choose(map.pick(x, y, REACH_PIXELS / view.scale));
      return;
    }
    if (this.tool === "ask-box") return;
    if (this.app.drawing.has(this.tool) && !this.points.length && this.#isTaken(event, place)) return;
    this.#add(this.#meant(event, place));
  }

  /** Whether a click was for a tool that takes features, or places that are no points of a line. */
  #isTaken(event, pixel) {
    const { drawing, map, view } = this.app;
    const [x, y] = view.toPlane(...pixel);
    return drawing.click(this.tool, [x, y], this.#meant(event, pixel), map.pick(x, y, REACH_PIXELS / view.scale));
  }

  #add(point) {
    const last = this.points.at(-1);
    const isFirst = same(point, this.points[0]);
    const isEnd = same(point, last) || (isFirst && CODES[this.tool] === 3);
    if (isEnd && this.points.length >= LEAST_POINTS[this.tool]) {
      this.finish();
      return;
    }
    this.app.drawing.note();
    if (!same(point, last)) this.points.push(point);
    if (this.tool === "point") this.finish();
    else this.#sketch();
  }

  #sketch(next) {
    const points = next ? [...this.points, next] : this.points;
    if (!points.length) return this.app.overlay.show("sketch", null);
    if (this.tool === "measure") this.app.tell(this.app.place.measured(points));
    const isClosed = CODES[this.tool] === 3 && points.length > 2;
    this.app.overlay.show("sketch", isClosed ? ring(points) : { code: 2, members: [[points.flat()]] });
  }

  /** Ends what is drawn: it is added to the layer, or asked about. */
  finish() {
    if (this.points.length < (LEAST_POINTS[this.tool] ?? Infinity)) return;
    const { points, app } = this;
    const { since } = app.drawing;
    this.giveUp();
    if (this.tool === "measure") return this.app.tell(this.app.place.measured(points));
    if (this.tool === "ask-polygon") {
      this.app.asking.askAbout(wktOf("polygon", points, this.app.place.units), ring(points));
      return;
    }
    if (this.app.drawing.has(this.tool)) return app.drawing.finish(this.tool, points, since);
    const layer = this.app.map.layer(byId("target").value);
    if (!layer) return this.#missLayer(wktOf(this.tool, points, this.app.place.units));
    app.draw(layer.name, wktOf(this.tool, points, app.place.units, layer.kind.startsWith("multi")), since);
  }

  /** Tells that there is no layer for what was drawn, which stays in the console. */
  #missLayer(wkt) {
    const isThere = this.app.map.layers.length > 0;
    const words = isThere ? "The layer that was chosen is not there any more: choose one." : "There is no layer to draw in: type `layer add NAME KIND` at the console.";
    this.app.tell(words);
    this.app.log.add(wkt, words, "refused");
  }

  takeBack() {
    this.points.pop();
    this.#sketch();
  }

  /** Gives up what is being drawn, with some words: its places are others now. They stay in the console, as they were. */
  letGo(words) {
    const { units } = this.app.place;
    const begun = this.app.drawing.from ? [this.app.drawing.from] : this.points;
    if (begun.length) this.app.miss(`${this.tool} ${begun.map((point) => units.point(point)).join(", ")}`, words);
    this.giveUp();
    this.app.drawing.giveUp();
  }

  giveUp() {
    this.points = [];
    this.app.drawing.from = null;
    this.app.drawing.since = null;
    this.app.overlay.show("sketch", null);
  }
}

/** A polygon with these points round it. */
const ring = (points) => ({ code: 3, members: [[[...points, points[0]].flat()]] });

const same = (one, other) => Boolean(one && other && one[0] === other[0] && one[1] === other[1]);
