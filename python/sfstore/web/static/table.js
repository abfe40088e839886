// A table of a layer's values: the server sorts, filters and searches, and gives a page at a time.

import { byId, counted, element, renameIn } from "./dom.js";
import { call } from "./server.js";
import { labelOf } from "./values.js";

// How many rows a page has.
const ROWS = 50;
// How long nothing is typed or changed before the table is asked for anew.
const REST_MILLISECONDS = 250;
const NUMBERS = new Set(["int", "decimal"]);
const WITHOUT_VALUE = new Set(["filled", "empty"]);

export class ValueTable {
  constructor(app) {
    this.app = app;
    this.layers = [];
    // What was sorted by: a column and which way; the identifiers at first.
    this.order = { sort: null, falling: false };
    this.begin = 0;
    this.page = null;
    this.turn = 0;
    byId("table-asked").onsubmit = (event) => event.preventDefault();
    byId("table-layer").onchange = () => this.#chooseLayer();
    for (const id of ["table-in", "table-column", "table-how", "table-here"]) byId(id).onchange = () => this.#ask();
    for (const id of ["table-part", "table-value"]) byId(id).oninput = () => this.#soon(() => this.#ask());
    byId("table-clear").onclick = () => this.#showAll();
    byId("table-back").onclick = () => this.show(this.begin - ROWS);
    byId("table-next").onclick = () => this.show(this.begin + ROWS);
    byId("table-rows").addEventListener("keydown", (event) => this.#key(event));
  }

  get isShown() {
    return this.app.tabs.shown === "table";
  }

  get layer() {
    return byId("table-layer").value;
  }

  /** Takes the layers of the store, with their columns. */
  setLayers(layers) {
    const chosen = this.layer;
    this.layers = layers;
    byId("table-layer").replaceChildren(...layers.map(({ name }) => new Option(name, name)));
    if (layers.some(({ name }) => name === chosen)) byId("table-layer").value = chosen;
    this.#listColumns();
    this.changed();
  }

  /** Follows a layer to another name. */
  rename(before, after) {
    renameIn(byId("table-layer"), before, after);
  }

  /** Shows another layer, with all that it has. */
  open(layer) {
    byId("table-layer").value = layer;
    this.app.tabs.show("table");
    this.#chooseLayer();
  }

  #chooseLayer() {
    this.order = { sort: null, falling: false };
    this.#listColumns();
    this.#showAll();
  }

  #listColumns() {
    const columns = this.layers.find(({ name }) => name === this.layer)?.columns ?? [];
    for (const [id, all] of [["table-in", "all columns"], ["table-column", "no filter"]]) {
      const chosen = byId(id).value;
      byId(id).replaceChildren(new Option(all, ""), ...columns.map(({ name }) => new Option(id === "table-in" ? `in ${name}` : name, name)));
      if (columns.some(({ name }) => name === chosen)) byId(id).value = chosen;
    }
    if (!columns.some(({ name }) => name === this.order.sort)) this.order = { sort: null, falling: false };
  }

  #showAll() {
    for (const id of ["table-part", "table-in", "table-column", "table-value"]) byId(id).value = "";
    byId("table-here").checked = false;
    return this.#ask();
  }

  #ask() {
    return this.show(0);
  }

  #soon(job) {
    clearTimeout(this.rest);
    this.rest = setTimeout(job, REST_MILLISECONDS);
  }

  /** Looks anew where something was changed. */
  changed() {
    if (this.isShown) this.#soon(() => this.show(this.begin));
  }

  /** Looks anew where the window is another one, and the table shows what it has. */
  moved() {
    if (this.isShown && byId("table-here").checked) this.#soon(() => this.#ask());
  }

  /** Marks what is selected, and turns to the page that has it. */
  mark() {
    if (!this.isShown || !this.page) return;
    const place = this.app.selection.place;
    this.#markRows();
    const isElsewhere = place?.layer === this.page.layer && !this.page.rows.some(([id]) => id === place.id);
    if (isElsewhere && this.looked !== place.id) this.show(this.begin, { around: place.id });
    this.looked = place?.id;
  }

  #conditions() {
    const found = [];
    const part = byId("table-part").value.trim();
    if (part) found.push([byId("table-in").value || null, "has", part]);
    const [column, how, value] = ["table-column", "table-how", "table-value"].map((id) => byId(id).value);
    byId("table-how").hidden = !column;
    byId("table-value").hidden = !column || WITHOUT_VALUE.has(how);
    if (column && (value.trim() || WITHOUT_VALUE.has(how))) found.push([column, how, value.trim()]);
    return found;
  }

  /** Asks for the page that begins at a row, or has a feature, and shows it. What is asked later is newer. */
  async show(begin, { around = null, focus = null } = {}) {
    clearTimeout(this.rest);
    const { layer } = this;
    const turn = ++this.turn;
    if (!layer) return this.#tell(null, "There is no layer.");
    const box = byId("table-here").checked ? this.app.map.window : null;
    const asked = { layer, ...this.order, conditions: this.#conditions(), box, from: Math.max(0, begin), count: ROWS, around };
    let answer;
    do {
      try {
        answer = await call("table", asked);
      } catch (fault) {
        if (turn === this.turn) this.#tell(null, fault.message);
        return;
      }
      if (turn !== this.turn) return;
      if (answer.read !== undefined) byId("table-count").textContent = `Reading: ${counted(answer.read)} of ${counted(answer.total)}`;
    } while (answer.read !== undefined);
    if (answer.refused) return this.#tell(null, `There is no layer ${layer}.`);
    this.begin = answer.from;
    this.#tell({ layer, ...answer });
    if (focus !== null) this.#rowsShown().at(focus)?.focus();
  }

  /** Shows a page, or nothing with a sentence that says why. */
  #tell(page, words = "") {
    this.page = page;
    const focused = document.activeElement.closest("#table-rows tr")?.dataset.id;
    const { rows = [], columns = [], count = 0, total = 0, from = 0 } = page ?? {};
    const seen = rows.length ? `${counted(from + 1)} to ${counted(from + rows.length)} of ${counted(count)}` : "none";
    byId("table-count").textContent = words || seen + (count < total ? ` found, of ${counted(total)}` : "");
    byId("table-back").disabled = from === 0;
    byId("table-next").disabled = from + rows.length >= count;
    byId("table-caption").textContent = page ? `Values of ${page.layer}` : "Values";
    // A column of which no row has a value is narrow: of many columns those that say something are seen.
    this.bare = columns.map((_, at) => rows.length > 0 && rows.every(([, values]) => values[at] === null));
    byId("table-head").replaceChildren(...(page ? [{ name: null, type: "int" }, ...columns].map((column, at) => this.#head(column, this.bare[at - 1])) : []));
    byId("table-rows").replaceChildren(...rows.map(([id, values], at) => this.#row(id, values, from + at)));
    const grid = byId("table-grid");
    grid.setAttribute("aria-rowcount", String(count + 1));
    grid.setAttribute("aria-colcount", String(columns.length + 1));
    byId("table-frame").scrollTop = 0;
    // Whoever goes through the rows by keys goes on where an edit of somebody else has the table shown anew.
    if (focused) this.#rowsShown().find(({ dataset }) => dataset.id === focused)?.focus();
    this.#markRows();
  }

  /** The head of a column, which sorts by it; without a name that of the identifiers. */
  #head({ name, type }, isBare = false) {
    const button = element("button", { type: "button" }, name === null ? "feature" : name);
    button.title = name === null ? "Sort by identifier" : `Sort by ${labelOf(name, type)}`;
    button.onclick = async () => {
      const isSame = this.order.sort === name;
      this.order = { sort: name, falling: isSame && !this.order.falling };
      await this.#ask();
      const at = ["", ...(this.page?.columns ?? []).map((column) => column.name)].indexOf(name ?? "");
      byId("table-head").children[at]?.querySelector("button").focus();
    };
    const head = element("th", { scope: "col", className: classOf(type, isBare) }, button);
    const isSorted = this.order.sort === name;
    head.setAttribute("aria-sort", isSorted ? (this.order.falling ? "descending" : "ascending") : "none");
    return head;
  }

  #row(id, values, at) {
    const cells = values.map((value, column) => {
      const className = classOf(this.page.columns[column].type, this.bare[column]);
      return element("td", { className, title: value?.length > 30 ? value : "" }, value ?? "");
    });
    const row = element("tr", { tabIndex: -1 }, element("td", { className: "number" }, String(id)), ...cells);
    for (const cell of row.children) cell.setAttribute("role", "gridcell");
    row.dataset.id = id;
    row.setAttribute("aria-rowindex", String(at + 2));
    row.onclick = () => this.#choose(row);
    return row;
  }

  #rowsShown() {
    return [...byId("table-rows").children];
  }

  #markRows() {
    const place = this.app.selection.place;
    const hits = this.app.asking.hits.get(this.page?.layer);
    const rows = this.#rowsShown();
    for (const row of rows) {
      const id = Number(row.dataset.id);
      const isChosen = place?.layer === this.page.layer && place.id === id;
      row.setAttribute("aria-selected", String(isChosen));
      row.classList.toggle("hit", Boolean(hits?.has(id)));
      if (isChosen) row.scrollIntoView({ block: "nearest" });
    }
    // One row is reached by Tab: the one that is selected, or the first.
    const reached = rows.find((row) => row === document.activeElement) ?? rows.find((row) => row.ariaSelected === "true") ?? rows[0];
    for (const row of rows) row.tabIndex = row === reached ? 0 : -1;
  }

  /** Selects the feature of a row, and shows it on the map. */
  async #choose(row) {
    row.focus();
    const place = { layer: this.page.layer, id: Number(row.dataset.id) };
    this.looked = place.id;
    await this.app.selection.choose(place);
    this.app.showChosen();
  }

  #key(event) {
    const rows = this.#rowsShown();
    const at = rows.indexOf(document.activeElement.closest("tr"));
    const moves = { ArrowDown: at + 1, ArrowUp: at - 1, Home: 0, End: rows.length - 1 };
    const { key } = event;
    if (key === "Enter" || key === " ") this.#choose(rows[at]);
    else if (key === "PageDown" || (key === "ArrowDown" && at === rows.length - 1)) this.#turnTo(ROWS, 0);
    else if (key === "PageUp" || (key === "ArrowUp" && at === 0)) this.#turnTo(-ROWS, key === "PageUp" ? 0 : -1);
    else if (key in moves) rows[moves[key]]?.focus();
    else return;
    event.preventDefault();
  }

  /** Turns to the next page or the one before, and to a row of it. */
  #turnTo(by, focus) {
    const next = this.begin + by;
    if (this.page && next >= 0 && next < this.page.count) this.show(next, { focus });
  }
}

/** How the cells of a column stand. */
const classOf = (type, isBare) => [NUMBERS.has(type) && "number", isBare && "bare"].filter(Boolean).join(" ");
