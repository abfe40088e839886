// What is drawn over the map: what is being drawn, asked about, refused, and the vertices of what is selected.

import { drawn } from "./dom.js";
import { pathOf } from "./geometry.js";

// How long, in pixels, an edge is at least that has a handle in its middle: each of the three has 24.
const APART_PIXELS = 48;

export class Overlay {
  constructor(layer, view) {
    this.view = view;
    this.shapes = { asked: null, refused: null, sketch: null };
    this.paths = {};
    for (const name of Object.keys(this.shapes)) this.paths[name] = drawn("path", { class: name });
    this.breaks = drawn("g", { class: "breaks" });
    this.marks = drawn("g", { class: "fault-marks" });
    this.handles = drawn("g");
    layer.append(...Object.values(this.paths), this.breaks, this.marks, this.handles);
    this.faults = [];
    this.breaking = [];
  }

  /** Draws a shape under a name, or takes it away. */
  show(name, shape) {
    this.shapes[name] = shape;
    this.place();
  }

  /** Draws a refused geometry with the places where it is wrong, and the features that would break a rule. */
  showRefused(shape, faults, breaking = []) {
    this.faults = faults;
    this.breaking = breaking;
    this.breaks.replaceChildren(...breaking.map(() => drawn("path", { class: "refused" })));
    this.marks.replaceChildren(...faults.map(() => drawn("circle", { r: 9, class: "fault-mark" })));
    this.show("refused", shape);
  }

  /** Puts everything where the view has it now. */
  place() {
    const pixels = (x, y) => this.view.toPixels(x, y).map((value) => Math.round(value * 100) / 100);
    for (const [name, shape] of Object.entries(this.shapes)) {
      this.paths[name].setAttribute("d", shape ? pathOf(shape.code, shape.members, pixels) : "");
    }
    this.breaking.forEach(({ code, members }, place) => {
      this.breaks.children[place].setAttribute("d", pathOf(code, members, pixels));
    });
    this.faults.forEach((point, place) => put(this.marks.children[place], pixels(...point)));
    for (const handle of this.handles.children) {
      put(handle, pixels(handle.vertex.x, handle.vertex.y));
      handle.classList.toggle("crowded", handle.vertex.length * this.view.scale < APART_PIXELS);
    }
  }
}

function put(mark, [left, top]) {
  mark.setAttribute("transform", `translate(${left} ${top})`);
}
