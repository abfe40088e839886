// The feature that is selected: its values, its text, and its vertices on the map.

import { byId, drawn, element, grouped, sure } from "./dom.js";
import { boxOf, isInBox, KINDS, middlesOf, onGrid, verticesOf, withVertex } from "./geometry.js";
import { call } from "./server.js";
import { NO_VALUE, faultIn, fieldOf, hint, isTyped, labelOf, shortLabelOf, show, valueIn, wordIn } from "./values.js";

// How many vertices can be taken hold of at a time.
const HANDLES_MAX = 300;
// How wide, in pixels, a handle is to the mouse, and how wide it looks.
const REACH_RADIUS = 12;
const VERTEX_RADIUS = 6;
const MIDDLE_RADIUS = 4;
// So many columns without a value are folded.
const FOLDED_FROM = 8;

export class Selection {
  constructor(app) {
    this.app = app;
    this.feature = null;
    this.wanted = null;
    // The handle that is being moved, and has not been let go.
    this.held = null;
    this.turn = Promise.resolve();
    this.isUnsure = false;
    byId("replace").onclick = () => this.#replace();
    byId("delete").onclick = () => this.delete();
    byId("go").onclick = () => app.view.fitFeature(boxOf(this.feature.members));
  }

  get place() {
    return this.feature && { layer: this.feature.layer, id: this.feature.id };
  }

  /** Whether a value or a geometry is typed that was not sent. */
  get hasTyped() {
    return Boolean(this.feature) && (this.#isTextTyped(this.feature) || [...byId("values").querySelectorAll("input, select, textarea")].some(isTyped));
  }

  #isTextTyped({ wkt }) {
    return ![wkt, this.sentText].includes(typedText());
  }

  /** Follows the layer of what is selected to another name. What is typed stays, and so does what is dragged. */
  rename(before, after) {
    const renamed = (feature) => (feature?.layer === before ? { ...feature, layer: after } : feature);
    this.wanted = renamed(this.wanted);
    this.feature = renamed(this.feature);
    for (const part of [...this.#rows(), ...this.app.overlay.handles.children, this.held].filter(Boolean)) part.feature = renamed(part.feature);
  }

  #rows() {
    return [byId("filled-values"), byId("empty-values")].flatMap((body) => [...body.rows]);
  }

  /**
   * Has an edit of a feature carried out, once those before it are answered and drawn.
   *
   * The server is told what was seen of the feature when the edit was made, and refuses what would meet something else.
   * Where it matters which vertices there are, nothing is sent once the geometry is another one.
   */
  #edit(line, feature = this.feature, { needsShape = false, asSeen = false } = {}) {
    const words = line(nameOf(feature));
    const { shown } = this.app;
    const seen = !asSeen && isSame(this.feature, feature) ? this.feature : feature;
    const sent = this.turn.then(async () => {
      if (this.isUnsure) await this.refresh();
      this.isUnsure = false;
      const now = isSame(this.feature, feature) ? this.feature : null;
      if (needsShape && !now) return this.app.miss(words, `${nameOf(feature)} is selected no more.`);
      if (needsShape && now.wkt !== feature.wkt) return this.app.miss(words, missed(now));
      return this.app.run(words, { seen: (now && isAlike(now, seen) ? now : seen).version, shown });
    });
    // Whether it was done is not known where the answer is lost: it is looked at before the next one.
    this.turn = sent.catch(() => (this.isUnsure = true));
    return sent;
  }

  /** Selects a feature, or nothing. */
  async choose(place) {
    this.wanted = place;
    const found = place && (await call("feature", { ...place, units: "map" }));
    if (this.wanted !== place) return;
    const before = this.feature;
    this.feature = found && !found.refused ? found : null;
    if (!this.feature) this.wanted = null;
    if (before && place && isSame(before, place)) this.#giveUpOutdated(before, found.by);
    this.app.mark();
    this.#tell(before);
    this.showHandles();
  }

  /** Looks anew at the selected feature, or at the one that is being selected: it may have been changed. */
  refresh() {
    return this.wanted ? this.choose({ ...this.wanted }) : undefined;
  }

  /** Lets go of what is selected, with some words: another feature may have its name now. What is typed or dragged stays in the console. */
  letGo(words) {
    const { feature } = this;
    this.wanted = null;
    if (!feature) return;
    if (this.held) this.app.miss(vertexLine(this.held, feature, this.app.place.units), words);
    this.giveUp();
    // One that is pressed, and was not moved yet.
    for (const handle of this.app.overlay.handles.children) handle.isGivenUp = true;
    if (this.#isTextTyped(feature)) this.app.miss(`replace ${nameOf(feature)} ${typedText()}`, words);
    for (const each of feature.values) {
      const input = byId(`value-${each.name}`);
      if (!isTyped(input)) continue;
      this.app.miss(valueLine(feature, each.name, each.type, input), words);
      show(input, input.shown);
    }
    this.feature = null;
    this.app.mark();
    this.#tell(feature);
    this.showHandles();
  }

  #replace() {
    this.sentText = typedText();
    this.#edit((name) => `replace ${name} ${this.sentText}`);
  }

  async delete() {
    const { feature } = this;
    if (!feature) return;
    const words = `Delete ${nameOf(feature)}? It can be undone until somebody else edits.`;
    if (await sure(words, "Delete")) await this.#edit((name) => `delete ${name}`, feature, { asSeen: true });
  }

  /** Gives up what is being typed or dragged where it was meant for what is there no more. */
  #giveUpOutdated(before, by) {
    const now = this.feature;
    const words = missed({ ...before, by }, now ? "changed" : "deleted");
    if (now?.wkt !== before.wkt) {
      if (this.held) this.app.miss(vertexLine(this.held, before, this.app.place.units), words);
      this.giveUp();
      if (this.#isTextTyped(before)) this.app.miss(`replace ${nameOf(before)} ${typedText()}`, words);
      byId("wkt").value = now?.wkt ?? "";
    }
    for (const each of before.values) {
      const input = byId(`value-${each.name}`);
      const left = now?.values.find((other) => other.name === each.name && other.type === each.type);
      if (!isTyped(input) || (left && left.value === each.value && fieldKey(left) === fieldKey(each))) continue;
      this.app.miss(valueLine(before, each.name, each.type, input), left?.value === each.value ? otherField(each) : words);
      show(input, input.shown);
    }
  }

  #tell(before) {
    const { feature } = this;
    byId("chosen").hidden = !feature;
    byId("chosen-title").textContent = feature ? `${nameOf(feature)}, a ${KINDS[feature.code]}` : "Nothing selected";
    if (!feature) this.shown = "";
    if (!feature) return;
    byId("measures").replaceChildren(...this.#measures(feature));
    if (!isSame(before, feature)) byId("wkt").value = feature.wkt;
    const shown = JSON.stringify([feature.layer, feature.id, feature.values.map(fieldKey)]);
    // The same fields stay, so that nobody is disturbed who types in one of them.
    if (shown !== this.shown) this.#showRows(feature);
    this.shown = shown;
    feature.values.forEach(fill);
    byId("empty-count").textContent = emptyWords([...byId("empty-values").rows]);
  }

  #measures({ area, length }) {
    const { units } = this.app.place;
    const parts = [area && `Area ${units.withSquaredUnit(grouped(area))}`, length && `Length ${units.withUnit(grouped(length))}`].filter(Boolean);
    // A number and its unit stay on one line.
    return parts.flatMap((part, at) => [at ? ", " : "", element("span", {}, part)]);
  }

  /** Shows a field for each column. Where many have no value, these are folded, until somebody opens them. What is typed in one stays. */
  #showRows(feature) {
    const bodies = [byId("filled-values"), byId("empty-values")];
    const known = new Map(this.#rows().map((row) => [rowKey(row.feature, row.column), row]));
    const isEmpty = ({ value }) => value === null;
    const isFolded = feature.values.filter(isEmpty).length >= FOLDED_FROM;
    const rows = feature.values.map((each) => known.get(rowKey(feature, each)) ?? this.#row(each, feature));
    const place = (row, each) => (row.contains(document.activeElement) ? row.parentNode : bodies[isFolded && isEmpty(each) ? 1 : 0]);
    for (const body of bodies) arrange(body, rows.filter((row, at) => place(row, feature.values[at]) === body));
    byId("empty").hidden = !isFolded;
    // Of a feature that has no value at all, as one that was drawn just now, all fields are seen.
    if (isFolded) byId("empty").open = feature.values.every(isEmpty);
    byId("values").scrollTop = 0;
  }

  /** A row of the table: the name of a column, and a field for its value. */
  #row(column, feature) {
    const { name, type } = column;
    const input = fieldOf(column, () => this.#set(row.feature, name, type, input));
    const clear = element("button", { type: "button", ariaLabel: `Clear ${name}`, title: `Clear ${name}` }, "×");
    clear.onclick = () => this.#edit((words) => `unset ${words} ${name}`, row.feature);
    const label = element("label", { htmlFor: input.id, title: labelOf(name, type) }, shortLabelOf(name, type));
    const row = element("tr", {}, element("th", { scope: "row" }, label), element("td", {}, input), element("td", {}, clear));
    return Object.assign(row, { feature, column });
  }

  /** Sets a value that was typed. Where that is not done, the field shows the value that is there. */
  async #set(feature, name, type, input) {
    const before = input.shown;
    const fault = faultIn(input, name);
    if (fault) {
      const line = input.validity.badInput ? `set ${nameOf(feature)} ${name}` : valueLine(feature, name, type, input);
      this.app.miss(line, `${fault}: nothing was sent.`);
      show(input, before);
      return;
    }
    input.shown = valueIn(input);
    let isSet = false;
    try {
      const answer = await this.#edit(() => valueLine(feature, name, type, input), feature);
      isSet = !answer.refused;
    } finally {
      if (!isSet) {
        show(input, before);
        await this.refresh();
      }
    }
  }

  /** Draws a handle for each vertex that is seen, and one between each two. */
  showHandles() {
    const { overlay, view } = this.app;
    const focused = document.activeElement?.vertex && document.activeElement;
    const handles = this.feature ? this.#handles(view.box(0.5)) : [];
    overlay.handles.replaceChildren(...handles);
    overlay.place();
    if (focused) this.#focusAgain(focused);
  }

  #handles(seen) {
    const { code, members } = this.feature;
    const isSeen = ({ x, y }) => isInBox(seen, x, y, 0);
    const vertices = verticesOf(code, members).filter(isSeen);
    const tooMany = vertices.length > HANDLES_MAX;
    byId("vertices").textContent = tooMany ? "Zoom in to move its vertices." : "";
    if (tooMany) return [];
    const middles = middlesOf(code, members).filter(isSeen);
    return [...middles.map((place) => this.#handle(place, true)), ...vertices.map((place) => this.#handle(place, false))];
  }

  #handle(vertex, isNew) {
    const words = isNew ? "A new vertex" : `Vertex ${vertex.index} of part ${vertex.part}, ring ${vertex.ring}`;
    const handle = drawn("g", {
      class: isNew ? "handle middle" : "handle",
      tabindex: isNew ? -1 : 0,
      role: "button",
      "aria-label": `${words} at ${this.app.place.units.point([vertex.x, vertex.y])}`,
    });
    handle.append(drawn("circle", { class: "reach", r: REACH_RADIUS }), drawn("circle", { class: "dot", r: isNew ? MIDDLE_RADIUS : VERTEX_RADIUS }));
    handle.vertex = { ...vertex, isNew };
    // What its numbers count in.
    handle.feature = this.feature;
    if (!isNew) handle.addEventListener("keydown", (event) => this.#key(event, handle));
    return handle;
  }

  /** Goes back to a vertex whose handle is another one now, in the middle of a move too. */
  #focusAgain({ vertex: { part, ring, index }, tried }) {
    const same = ({ vertex }) => vertex.part === part && vertex.ring === ring && vertex.index === index && !vertex.isNew;
    const again = [...this.app.overlay.handles.children].find(same);
    (again ?? this.app.view.svg).focus();
    if (again && tried && this.held) {
      again.tried = tried;
      this.held = again;
    }
  }

  focusFirst() {
    this.app.overlay.handles.querySelector(".handle:not(.middle)")?.focus();
  }

  /** Begins a move of a vertex. */
  take(handle) {
    handle.isGivenUp = false;
  }

  /** Shows a vertex at another place, before it is moved there. */
  try(handle, [x, y]) {
    const { code, members } = handle.feature;
    if (handle.isGivenUp || !this.feature) return;
    this.app.overlay.show("sketch", { code, members: withVertex(code, members, handle.vertex, handle.vertex.isNew, x, y) });
    handle.tried = [x, y];
    this.held = handle;
  }

  /** Ends the move of a vertex; what is tried with this handle afterwards is nothing. */
  giveUp() {
    this.app.overlay.show("sketch", null);
    if (this.held) Object.assign(this.held, { tried: null, isGivenUp: true });
    this.held = null;
  }

  /** Moves a vertex where it was tried last, or inserts it there. */
  async keep(handle) {
    if (!handle.tried) return;
    const line = vertexLine(handle, handle.feature, this.app.place.units);
    this.giveUp();
    await this.#edit(() => line, handle.feature, { needsShape: true });
  }

  #key(event, handle) {
    const far = event.shiftKey ? 10 : 1;
    const moves = { ArrowLeft: [-far, 0], ArrowRight: [far, 0], ArrowUp: [0, far], ArrowDown: [0, -far] };
    const move = moves[event.key];
    if (move) {
      const [x, y] = handle.tried ?? [handle.vertex.x, handle.vertex.y];
      this.take(handle);
      this.try(handle, onGrid(x + move[0], y + move[1]));
    } else if (event.key === "Enter") this.keep(handle);
    else if (event.key === "Escape" && handle.tried) this.giveUp();
    else if (event.key === "Delete") this.#remove(handle);
    else if (event.key === "i" || event.key === "I") this.#insertBehind(handle);
    else return;
    event.preventDefault();
    event.stopPropagation();
  }

  #remove({ vertex, feature }) {
    this.#edit((name) => `vertex remove ${name} ${numbers(vertex)}`, feature, { needsShape: true });
  }

  #insertBehind({ vertex: { part, ring, index }, feature }) {
    const isBehind = (place) => place.part === part && place.ring === ring && place.index === index + 1;
    const middle = middlesOf(feature.code, feature.members).find(isBehind);
    if (!middle) return;
    const line = (name) => `vertex insert ${name} ${numbers(middle)} ${this.app.place.units.point([middle.x, middle.y])}`;
    this.#edit(line, feature, { needsShape: true });
  }
}

const nameOf = ({ layer, id }) => `${layer} ${id}`;

/** Whether two are the same feature, whatever it looks like. */
const isSame = (one, other) => one?.layer === other.layer && one.id === other.id;

/** Whether a feature is as it was seen, whichever version of the store it is of. */
const isAlike = (now, seen) => now.wkt === seen.wkt && JSON.stringify(now.values) === JSON.stringify(seen.values);

/** The text that stands in the field of the geometry, as a line takes it. */
const typedText = () => byId("wkt").value.replaceAll("\n", " ");

/** Who has changed a feature before something could be done, in a sentence. */
const missed = (feature, did = "changed") => `${feature.by ?? "Somebody"} ${did} ${nameOf(feature)} meanwhile: look again.`;

/** The line that moves or inserts a vertex where its handle was tried. */
function vertexLine({ vertex, tried }, feature, units) {
  return `vertex ${vertex.isNew ? "insert" : "move"} ${nameOf(feature)} ${numbers(vertex)} ${units.point(tried)}`;
}

/** The line that sets what stands in a field, or clears the value. */
function valueLine(feature, name, type, input) {
  const word = wordIn(input, type);
  return word === "" ? `unset ${nameOf(feature)} ${name}` : `set ${nameOf(feature)} ${name} ${word}`;
}

/** What makes the field of a column another one. */
const fieldKey = ({ name, type, allowed }) => JSON.stringify([name, type, allowed]);

const rowKey = ({ layer, id }, column) => JSON.stringify([layer, id, fieldKey(column)]);

/** Why what was typed is given up, where a column has another field now. */
const otherField = ({ name }) => `A rule allows other values of ${name} now: look again.`;

/** Has a part of a table these rows, in their order. One that is there already is not taken out: whoever types in it would be disturbed. */
function arrange(body, rows) {
  for (const row of [...body.rows]) if (!rows.includes(row)) row.remove();
  rows.forEach((row, at) => body.rows[at] !== row && body.insertBefore(row, body.rows[at] ?? null));
}

/** Shows a value in its field, but not over what is being typed there. */
function fill({ name, value, range }) {
  const input = byId(`value-${name}`);
  hint(input, range);
  if (input === document.activeElement && isTyped(input)) input.shown = value ?? "";
  else show(input, value ?? "");
  input.placeholder = value === null ? NO_VALUE : "";
  input.closest("tr").querySelector("button").disabled = value === null;
}

/** How many of the fields that are folded have no value: one may have got one meanwhile. */
function emptyWords(rows) {
  const filled = rows.filter((row) => !row.querySelector("button").disabled).length;
  const count = rows.length - filled;
  return `${count} empty ${count === 1 ? "value" : "values"}${filled ? `, and ${filled} just filled in` : ""}`;
}

const numbers = ({ part, ring, index }) => `${part} ${ring} ${index}`;
