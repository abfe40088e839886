// Questions about a geometry: the answers are highlighted on the map, and listed.

import { byId, counted, element, renameIn } from "./dom.js";
import { boxOf } from "./geometry.js";
import { call } from "./server.js";

// How many answers are listed.
const LISTED_MAX = 200;

export class Asking {
  constructor(app) {
    this.app = app;
    this.hits = new Map();
    this.count = 0;
    byId("ask").onsubmit = (event) => {
      event.preventDefault();
      this.ask();
    };
    byId("ask-predicate").onchange = () => {
      byId("pattern-label").hidden = byId("ask-predicate").value !== "";
      byId("distance-label").hidden = byId("ask-predicate").value !== "near";
      byId("count-label").hidden = byId("ask-predicate").value !== "nearest";
    };
    byId("ask-chosen").onclick = () => {
      if (app.selection.feature) byId("ask-wkt").value = app.selection.feature.wkt;
    };
    byId("ask-clear").onclick = () => this.clear();
  }

  setLayers(layers) {
    const chosen = byId("ask-layer").value;
    const options = layers.map(({ name }) => new Option(name, name));
    byId("ask-layer").replaceChildren(new Option("all layers", ""), ...options);
    if (layers.some(({ name }) => name === chosen)) byId("ask-layer").value = chosen;
  }

  /** Follows a layer to another name. */
  rename(before, after) {
    renameIn(byId("ask-layer"), before, after);
    this.hits = new Map([...this.hits].map(([layer, found]) => [layer === before ? after : layer, found]));
    this.#show();
  }

  /** Asks with the predicate, distance or pattern that is chosen about a geometry that was drawn. */
  askAbout(wkt, shape) {
    byId("ask-wkt").value = wkt;
    return this.ask(shape);
  }

  async ask(shape = null) {
    const wkt = byId("ask-wkt").value.replaceAll("\n", " ").trim();
    if (!wkt) return this.app.tell("There is no geometry to ask about: draw one, or take the selected feature.");
    const [verb, how] = this.#how();
    const layer = byId("ask-layer").value;
    const layers = layer ? [layer] : this.app.map.layers.map(({ name }) => name);
    this.clear();
    byId("ask-wkt").value = wkt;
    this.app.overlay.show("asked", shape);
    for (const name of layers) {
      const answer = await this.app.run(`${verb} ${name} ${how} ${wkt}`, { isFurther: true });
      if (answer.refused) break;
    }
  }

  /** The verb of the question, and the words between the layer and the geometry. */
  #how() {
    const predicate = byId("ask-predicate").value;
    if (predicate === "near") return ["query", `near ${byId("ask-distance").value.trim()}`];
    if (predicate === "nearest") return ["nearest", byId("ask-count").value.trim()];
    return predicate ? ["query", predicate] : ["match", byId("ask-pattern").value];
  }

  /** Takes the answer of a line that asked, typed or made here. A row begins with the identifier of a feature. */
  take(line, answer, isFurther) {
    const layer = line.split(/[ \t]+/)[1];
    if (!isFurther) this.clear();
    this.hits.set(layer, new Set(answer.rows.map((row) => Number(row.split(" ")[0]))));
    this.count += answer.count;
    this.#show();
    this.#scroll();
  }

  /** Scrolls the panel until what was found is seen: it stands below the fields. */
  #scroll() {
    const [panel, hits] = [byId("hits").closest("aside"), byId("hits")];
    const hidden = hits.getBoundingClientRect().bottom - panel.getBoundingClientRect().bottom;
    if (hidden > 0) panel.scrollTop += hidden;
  }

  clear() {
    this.hits = new Map();
    this.count = 0;
    byId("ask-wkt").value = "";
    this.app.overlay.show("asked", null);
    this.#show();
  }

  #show() {
    const found = [...this.hits].flatMap(([layer, features]) => [...features].map((id) => ({ layer, id })));
    const isAsked = this.hits.size > 0;
    const more = this.count > LISTED_MAX ? `, of which ${LISTED_MAX} are listed` : "";
    byId("hits-title").textContent = isAsked ? `${counted(this.count)} found${more}` : "";
    byId("hits").replaceChildren(...found.slice(0, LISTED_MAX).map((place) => this.#item(place)));
    this.app.mark();
  }

  #item(place) {
    const button = element("button", { type: "button" }, `${place.layer} ${place.id}`);
    button.onclick = async () => {
      const feature = await call("feature", place);
      if (feature.members) this.app.view.fitFeature(boxOf(feature.members));
      this.app.selection.choose(place);
    };
    return element("li", {}, button);
  }
}
