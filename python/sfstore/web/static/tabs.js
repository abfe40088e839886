// What stands below the map: one of several panels, chosen by tabs.

import { byId } from "./dom.js";

export class Tabs {
  /** `onShown` is given the name of the panel that is shown. */
  constructor(onShown) {
    this.onShown = onShown;
    this.tabs = [...byId("tabs").querySelectorAll("[role=tab]")];
    for (const tab of this.tabs) tab.onclick = () => this.show(this.#panelOf(tab));
    byId("tabs").addEventListener("keydown", (event) => this.#key(event));
    document.body.dataset.below = "console";
  }

  get shown() {
    return document.body.dataset.below;
  }

  show(name) {
    for (const tab of this.tabs) {
      const isShown = this.#panelOf(tab) === name;
      tab.setAttribute("aria-selected", String(isShown));
      tab.tabIndex = isShown ? 0 : -1;
      byId(this.#panelOf(tab)).hidden = !isShown;
    }
    document.body.dataset.below = name;
    this.onShown(name);
  }

  #panelOf(tab) {
    return tab.getAttribute("aria-controls");
  }

  #key(event) {
    const step = { ArrowLeft: -1, ArrowRight: 1 }[event.key];
    if (!step) return;
    event.preventDefault();
    const at = this.tabs.findIndex((tab) => tab === document.activeElement);
    const next = this.tabs.at((at + step) % this.tabs.length);
    next.focus();
    this.show(this.#panelOf(next));
  }
}
