// The forms for layers: how one looks, its name and its columns, and new ones. What they make are lines of the console.

import { byId, element, onChosen, sure } from "./dom.js";
import { scaleWords } from "./place.js";
import { call, CallFailed } from "./server.js";
import { DEFAULTS, widthOf } from "./styles.js";

// The fields of the form, by the names of a style's fields.
const FIELDS = {
  colour: "style-colour",
  width: "style-width",
  fillColour: "style-fill-colour",
  fill: "style-fill",
  symbol: "style-symbol",
  size: "style-size",
  shrinks: "style-shrinks",
  isShown: "style-shown",
  scaleFrom: "style-from",
  scaleTo: "style-to",
  label: "style-label",
  labelSize: "style-label-size",
  labelColour: "style-label-colour",
};
const NUMBERS = ["width", "fill", "size", "scaleFrom", "scaleTo", "labelSize"];
const OWN_NAME = "Letters, digits and underscores, a letter first";

export class LayerEditor {
  constructor(app) {
    this.app = app;
    this.name = null;
    this.fault = "";
    this.turn = Promise.resolve();
    for (const [field, id] of Object.entries(FIELDS)) {
      const changed = () => this.#changed(field);
      if (byId(id).tagName === "SELECT") onChosen(byId(id), changed);
      else byId(id).onchange = changed;
    }
    for (const button of byId("layer-editor").querySelectorAll("[data-clear]")) button.onclick = () => this.#give({ [button.dataset.clear]: null });
    for (const button of byId("layer-editor").querySelectorAll("[data-scale]")) button.onclick = () => this.#give({ [button.dataset.scale]: this.#scaleNow() });
    byId("style-reset").onclick = () => this.#send({ style: null });
    byId("layer-close").onclick = () => this.close();
    byId("layer-up").onclick = () => this.#move(1);
    byId("layer-down").onclick = () => this.#move(-1);
    byId("layer-drop").onclick = () => this.#drop();
    byId("layer-table").onclick = () => app.table.open(this.name);
    byId("layer-rename").onsubmit = (event) => this.#submitted(event, () => this.#rename());
    byId("column-new").onsubmit = (event) => this.#submitted(event, () => this.#addColumn());
    byId("layer-new").onsubmit = (event) => this.#submitted(event, () => this.#addLayer());
    for (const id of ["layer-name", "column-name", "layer-new-name"]) byId(id).title = OWN_NAME;
  }

  #submitted(event, job) {
    event.preventDefault();
    job();
  }

  get layer() {
    return this.name === null ? undefined : this.app.map.layer(this.name);
  }

  /** Takes why no style can be kept, where none can. */
  setFault(fault) {
    this.fault = fault;
    byId("style-fault").textContent = fault;
  }

  /** Shows what has become of the layers. */
  setLayers() {
    if (this.name !== null && !this.layer) this.close();
    else this.show();
  }

  /** Follows a layer to another name: its form stays open. */
  rename(before, after) {
    if (this.name === before) this.name = after;
  }

  /** Whether a name is typed that was not sent. */
  get hasTyped() {
    const isOther = this.name !== null && byId("layer-name").value.trim() !== this.name;
    return isOther || ["layer-new-name", "column-name"].some((id) => byId(id).value.trim());
  }

  /** Opens the form of a layer. */
  open(name) {
    this.name = name;
    this.show();
    byId("layer-editor").scrollIntoView({ block: "start" });
    byId("layer-title").focus();
  }

  close() {
    this.name = null;
    this.show();
    byId("layers-title").scrollIntoView({ block: "start" });
  }

  /** Shows the layer as it is. */
  show() {
    const { layer } = this;
    byId("layer-editor").hidden = !layer;
    if (!layer) return;
    byId("layer-title").textContent = `Layer ${layer.name}`;
    const { style, kind } = layer;
    byId("style-label").replaceChildren(new Option("no labels", ""), ...layer.columns.map(({ name }) => new Option(name, name)));
    // What the style does not say is shown as it is drawn.
    const [own, texts] = [layer.group, document.body].map((part) => hexOf(getComputedStyle(part).color));
    const drawn = { colour: own, fillColour: own, labelColour: texts, width: widthOf(kind) };
    for (const [field, id] of Object.entries(FIELDS)) showIn(byId(id), style[field] ?? drawn[field]);
    for (const part of byId("layer-editor").querySelectorAll("[data-kinds]")) part.hidden = kind !== "any" && !part.dataset.kinds.split(" ").some((word) => kind.includes(word));
    for (const button of byId("layer-editor").querySelectorAll("[data-clear]")) button.disabled = style[button.dataset.clear] === null;
    byId("style-label-more").hidden = !style.label;
    this.follow();
    this.#showColumns(layer);
    if (byId("layer-name") !== document.activeElement) byId("layer-name").value = layer.name;
    const at = this.app.map.layers.indexOf(layer);
    byId("layer-up").disabled = at === this.app.map.layers.length - 1;
    byId("layer-down").disabled = at === 0;
  }

  #showColumns({ columns }) {
    const items = columns.map(({ name, type }) => {
      const button = element("button", { type: "button", className: "quiet", ariaLabel: `Drop the column ${name}`, title: `Drop the column ${name}` }, "×");
      button.onclick = () => this.#dropColumn(name);
      return element("li", {}, element("span", {}, name, " ", element("span", { className: "note" }, type)), button);
    });
    byId("columns").replaceChildren(...items);
  }

  /** Tells at which scale the map is. */
  follow() {
    byId("style-now").textContent = `now 1:${scaleWords(this.app.view.denominator)}`;
  }

  #scaleNow() {
    return Math.max(1, Number(this.app.view.denominator.toPrecision(3)));
  }

  #changed(field) {
    const input = byId(FIELDS[field]);
    if (!input.checkValidity()) return input.reportValidity();
    const value = input.type === "checkbox" ? input.checked : NUMBERS.includes(field) && input.value !== "" ? Number(input.value) : input.value;
    this.#give({ [field]: value === "" ? null : value });
  }

  /** Gives the layer other values of fields of its style; one that is null is as without a style. */
  #give(values) {
    const isDefault = ([field, value]) => value === DEFAULTS[field];
    const fields = Object.fromEntries(Object.entries(values).map((each) => [each[0], isDefault(each) ? null : each[1]]));
    return this.#send({ fields });
  }

  /** Has the layer look otherwise for all. This page hears of it as others do. */
  #send(asked) {
    const { name } = this;
    // One after another: the last one is what stays.
    this.turn = this.turn
      .then(() => call("style", { layer: name, ...asked }))
      .then((answer) => this.#tellGone(answer.gave_way))
      .catch((fault) => this.#tellFault(fault));
    return this.turn;
  }

  /** Tells which layers that were dropped have lost their styles, as there was no room for them. */
  #tellGone(layers) {
    if (layers) this.app.tell(`There was no room for the styles of layers that were dropped: an undo brings ${layers.join(", ")} back without.`);
  }

  async #tellFault(fault) {
    if (!(fault instanceof CallFailed)) throw fault;
    await this.app.restyle();
    this.app.tell(fault.message);
  }

  async #addLayer() {
    const name = byId("layer-new-name").value.trim();
    const answer = await this.app.run(`layer add ${name} ${byId("layer-new-kind").value}`);
    if (answer.refused) return;
    byId("layer-new-name").value = "";
    this.open(name);
  }

  async #rename() {
    const name = byId("layer-name").value.trim();
    if (name === this.name) return;
    const before = this.name;
    const answer = await this.app.run(`layer rename ${before} ${name}`);
    if (!answer.refused) this.open(name);
  }

  #move(by) {
    const at = this.app.map.layers.indexOf(this.layer) + by;
    return this.app.run(`layer move ${this.name} ${at}`);
  }

  async #drop() {
    const { name } = this;
    const words = `Drop the layer ${name} with all that it has? It can be undone until somebody else edits, or all is saved.`;
    await this.#runIfSure(words, "Drop the layer", `layer drop ${name}`);
  }

  async #addColumn() {
    const answer = await this.app.run(`column add ${this.name} ${byId("column-name").value.trim()} ${byId("column-type").value}`);
    if (!answer.refused) byId("column-name").value = "";
    byId("column-name").focus();
  }

  async #dropColumn(column) {
    const { name } = this;
    const words = `Drop the column ${column} of ${name} with all its values? It can be undone until somebody else edits, or all is saved.`;
    await this.#runIfSure(words, "Drop the column", `column drop ${name} ${column}`);
  }

  /** Has a line carried out once that was answered: over what is there now, and not what has its name then. */
  async #runIfSure(words, deed, line) {
    const { version: seen, shown } = this.app;
    if (await sure(words, deed)) await this.app.run(line, { seen, shown });
  }
}

function showIn(input, value) {
  if (input === document.activeElement && input.type !== "checkbox" && input.tagName !== "SELECT") return;
  if (input.type === "checkbox") input.checked = value;
  else input.value = value ?? "";
}

/** A colour as a field of colours takes it. */
function hexOf(colour) {
  const pen = new OffscreenCanvas(1, 1).getContext("2d");
  pen.fillStyle = colour;
  return pen.fillStyle;
}
