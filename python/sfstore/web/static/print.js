// A sheet of paper with the map, a title, a legend, a scale bar and north: what the browser prints.

import { byId, drawn, element } from "./dom.js";
import { onGrid } from "./geometry.js";
import { barOf } from "./place.js";
import { swatch } from "./styles.js";

// How far the scale bar and the arrow stand from the sides of the map, in pixels of the screen.
const MARGIN = 16;
const BAR_HIGH = 6;
// How much wider than high the room for the map is on a sheet that lies.
const ASPECT = 1.45;

export class Sheet {
  constructor(app) {
    this.app = app;
    addEventListener("beforeprint", () => this.#make());
    addEventListener("afterprint", () => this.#end());
    byId("print").onclick = () => this.#ask();
    byId("printing-form").onsubmit = (event) => this.#print(event);
    byId("printing-leave").onclick = () => byId("printing").close();
  }

  #ask() {
    byId("sheet-name").value ||= byId("title").textContent;
    byId("printing").showModal();
  }

  async #print(event) {
    event.preventDefault();
    byId("printing").close();
    await this.#fill();
    print();
  }

  /** Has the map as high or as wide as the sheet has room for, with what the window shows in its middle. */
  async #fill() {
    const { view, map, labels } = this.app;
    const isFlat = view.width > view.height * ASPECT;
    view.fix(isFlat ? view.width : view.height * ASPECT, isFlat ? view.width / ASPECT : view.height);
    await map.refresh();
    await labels.settle();
  }

  /** Makes the sheet: the map is scaled as a whole, so the bar stays right. */
  #make() {
    const { view } = this.app;
    if (!view.isFixed) view.fix(view.width, view.height);
    document.documentElement.style.setProperty("--aspect", String(view.width / view.height));
    byId("sheet-title").textContent = byId("sheet-name").value || byId("title").textContent;
    byId("sheet-legend").replaceChildren(...this.#legend());
    byId("sheet-foot").textContent = [byId("system").textContent, new Date().toLocaleDateString("en-CA")].filter(Boolean).join(", ");
    byId("furniture").replaceChildren(...this.#bar(), ...this.#north(), ...this.#corners());
  }

  #end() {
    byId("furniture").replaceChildren();
    this.app.view.release();
  }

  /** The layers that are seen and have something in the window, the uppermost first. */
  #legend() {
    const layers = this.app.map.visibleLayers.filter(({ inside }) => inside > 0).reverse();
    return layers.map(({ name, kind, style, tint }) => element("li", {}, swatch(style, kind, tint), name));
  }

  #bar() {
    const { view, place } = this.app;
    const { pixels, words } = barOf(view.scale, place.units);
    const [left, bottom] = [MARGIN, view.height - MARGIN];
    const under = drawn("rect", { x: left - 6, y: bottom - 24, width: pixels + 12, height: 30, class: "under" });
    const bar = drawn("path", { d: `M${left} ${bottom - BAR_HIGH}V${bottom}H${left + pixels}V${bottom - BAR_HIGH}` });
    const text = drawn("text", { x: left + pixels / 2, y: bottom - 9 });
    text.textContent = place.units.isMap ? words : `${words} steps`;
    return [under, bar, text];
  }

  /** The coordinates of the upper left and the lower right corner, where they are those of a map. */
  #corners() {
    const { view, place } = this.app;
    if (!place.units.isMap) return [];
    const [left, bottom, right, top] = view.box(0);
    const [near, far] = [MARGIN / 2, view.width - MARGIN / 2];
    return [
      cornerWords(place.units.point(onGrid(left, top)), { x: near, y: MARGIN, class: "corner first" }),
      cornerWords(place.units.point(onGrid(right, bottom)), { x: far, y: view.height - MARGIN / 2, class: "corner last" }),
    ];
  }

  #north() {
    const left = this.app.view.width - MARGIN - 12;
    const arrow = drawn("path", { class: "north", d: `M${left} ${MARGIN + 14}l7 26l-7 -6l-7 6Z` });
    const text = drawn("text", { x: left, y: MARGIN + 10 });
    text.textContent = "N";
    return [drawn("rect", { x: left - 14, y: MARGIN - 6, width: 28, height: 52, class: "under" }), arrow, text];
  }
}

/** Coordinates at a corner of the map, over what is drawn there. */
function cornerWords(words, place) {
  const text = drawn("text", place);
  text.textContent = words;
  return text;
}
