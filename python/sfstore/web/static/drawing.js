// The tools that change several features at once: parting, merging, and borders and corners that are shared.

import { onGrid, wktOf } from "./geometry.js";

const HINTS = {
  split: "Draw a line across the selected area; Enter ends it.",
  merge: "Click an area that the selected one is to be merged with.",
  border: "Click the neighbour of the selected area, and then draw the border between them; Enter ends it.",
  node: "Click a corner, and then where it goes: in all features that have it.",
  hole: "Draw a hole in the selected area; Enter ends it.",
  fill: "Click in the hole of the selected area that is to be filled.",
};

export class Drawing {
  constructor(app) {
    this.app = app;
    this.giveUp();
  }

  /** Whether a tool is one of these. */
  has(tool) {
    return tool in HINTS;
  }

  /** Says what a tool wants. All but one want an area that is selected. */
  begin(tool) {
    this.giveUp();
    const isMissing = tool !== "node" && !this.app.selection.place;
    this.app.tell(isMissing ? "Select an area first, and then choose this tool." : HINTS[tool]);
  }

  giveUp() {
    // The neighbour of a border, and the corner that is to be moved.
    this.other = null;
    this.from = null;
    this.since = null;
  }

  /** Notes the version of the store that is shown when something is begun: what changes behind it was not seen. */
  note() {
    this.since ??= this.app.version;
  }

  /** Takes a click that is for no point of a line or ring, and says whether it was one. */
  click(tool, place, meant, picked) {
    if (tool === "node") {
      this.#node(meant);
      return true;
    }
    const { place: chosen } = this.app.selection;
    if (!chosen) {
      this.begin(tool);
      return true;
    }
    if (tool === "fill") this.#run(`fill ${nameOf(chosen)} ${this.#point(onGrid(...place))}`);
    else if (tool === "merge") this.#merge(chosen, picked);
    else if (tool === "border" && !this.other) this.#neighbour(chosen, picked);
    else return false;
    return true;
  }

  /** Shows where the corner that is moved would go. */
  hover(meant) {
    if (this.from) this.app.overlay.show("sketch", { code: 2, members: [[[...this.from, ...meant]]] });
  }

  /** Carries out what was drawn, which was begun when a version of the store was shown. */
  finish(tool, points, since) {
    this.since = since;
    const { place: chosen } = this.app.selection;
    if (!chosen) return this.begin(tool);
    const { units } = this.app.place;
    if (tool === "hole") return this.#run(`hole ${nameOf(chosen)} ${wktOf("polygon", points, units)}`);
    const line = wktOf("line", points, units);
    if (tool === "split") return this.#run(`split ${nameOf(chosen)} ${line}`);
    const other = this.other;
    this.other = null;
    return other && this.#run(`border ${nameOf(chosen)} ${other.id} ${line}`);
  }

  #node(meant) {
    if (!this.from) {
      this.note();
      this.from = meant;
      this.hover(meant);
      return;
    }
    const line = `node ${this.#point(this.from)} to ${this.#point(meant)}`;
    this.from = null;
    this.app.overlay.show("sketch", null);
    this.#run(line);
  }

  #merge(chosen, picked) {
    if (isNeighbour(chosen, picked)) this.#run(`merge ${nameOf(chosen)} ${picked.id}`);
    else this.app.tell(`That is no other area of ${chosen.layer}. ${HINTS.merge}`);
  }

  #neighbour(chosen, picked) {
    if (!isNeighbour(chosen, picked)) {
      this.app.tell(`That is no other area of ${chosen.layer}. ${HINTS.border}`);
      return;
    }
    this.note();
    this.other = picked;
    this.app.tell(`Draw the border between ${nameOf(chosen)} and ${picked.id}; Enter ends it.`);
  }

  /** A point as a line has it: x and y. */
  #point(point) {
    return this.app.place.units.point(point);
  }

  #run(line) {
    const seen = this.since ?? this.app.version;
    this.since = null;
    return this.app.run(line, { seen });
  }
}

const nameOf = ({ layer, id }) => `${layer} ${id}`;

/** Whether a feature is another one of the same layer. */
const isNeighbour = (chosen, picked) => Boolean(picked) && picked.layer === chosen.layer && picked.id !== chosen.id;
