// What was done, newest first: who did it, when, and what it touched.

import { byId, counted, element } from "./dom.js";
import { call } from "./server.js";

// How many entries are asked for at a time.
const ENTRIES = 100;
const REST_MILLISECONDS = 200;
// How far around what was touched the map is shown, as a part of its sides.
const AROUND = 1;

export class HistoryList {
  constructor(app) {
    this.app = app;
    this.entries = [];
    byId("history-more").onclick = () => this.#ask(this.entries.at(-1)?.number ?? null);
  }

  get isShown() {
    return this.app.tabs.shown === "history";
  }

  /** Looks anew where something was done. */
  changed() {
    if (!this.isShown) return;
    clearTimeout(this.rest);
    this.rest = setTimeout(() => this.show(), REST_MILLISECONDS);
  }

  /** Shows the newest entries. */
  show() {
    return this.#ask(null);
  }

  async #ask(before) {
    const { entries, more } = await call("history", { before, count: ENTRIES });
    this.entries = before === null ? entries : [...this.entries, ...entries];
    byId("history-rows").replaceChildren(...this.entries.map((entry) => this.#row(entry)));
    byId("history-more").hidden = !more;
  }

  #row(entry) {
    const { when, editor, line, step, changed, count, box } = entry;
    const time = element("td", { title: when === null ? "before this server began" : new Date(when * 1000).toLocaleString("en") }, when === null ? "before" : timeOf(when));
    const what = element("div", { className: "long", title: line }, step === line ? line : `${line}: ${step}`);
    const where = element("td");
    const words = whereWords(changed, count);
    if (words) {
      const canGo = box || changed.some(({ id }) => id !== null);
      const button = element("button", { type: "button", className: "quiet", title: "Go there" }, words);
      button.onclick = () => this.#go(entry);
      where.append(canGo ? button : words);
    }
    return element("tr", {}, time, element("td", {}, editor), element("td", {}, what), where);
  }

  /** Shows what an entry has touched, and selects the first of it that is there still. */
  async #go({ changed, box }) {
    for (const { layer, id } of changed) {
      if (id === null) continue;
      await this.app.selection.choose({ layer, id });
      if (this.app.selection.feature) break;
    }
    if (box) this.#fit(box);
    else if (this.app.selection.feature) this.app.showChosen();
    else this.app.tell("It is not there any more.");
  }

  /** Shows a box with something around it: of one point what was in sight before. */
  #fit([left, bottom, right, top]) {
    const far = Math.max(right - left, top - bottom) * AROUND;
    if (far) this.app.view.fit([left - far, bottom - far, right + far, top + far]);
    else this.app.view.center(left, bottom);
  }
}

/** A time of today, or a day with its time. */
function timeOf(seconds) {
  const [time, now] = [new Date(seconds * 1000), new Date()];
  const clock = time.toLocaleTimeString("en-GB");
  return time.toDateString() === now.toDateString() ? clock : `${time.toLocaleDateString("en-CA")} ${clock}`;
}

/** What was touched, in words. */
function whereWords(changed, count) {
  if (!count) return "";
  const [{ layer, id, what }] = changed;
  const names = [...new Set(changed.map((each) => each.layer ?? "all layers"))].join(", ");
  if (changed.every((each) => each.id === null)) return layer === null ? what : names;
  if (count > 1) return `${counted(count)} of ${names}`;
  return `${layer} ${id}`;
}
