// An editor of a store: this puts the parts of the page together.

import { Asking } from "./asking.js";
import { Background } from "./background.js";
import { byId, counted, element, sure } from "./dom.js";
import { Drawing } from "./drawing.js";
import { boxOf, isWithin } from "./geometry.js";
import { Hand } from "./hand.js";
import { HistoryList } from "./history.js";
import { Labels } from "./labels.js";
import { LayerEditor } from "./layers.js";
import { Log } from "./log.js";
import { Login } from "./login.js";
import { FeatureMap } from "./map.js";
import { Overlay } from "./overlay.js";
import { Overview } from "./overview.js";
import { Place } from "./place.js";
import { Sheet } from "./print.js";
import { Selection } from "./selection.js";
import { swatch } from "./styles.js";
import { Tabs } from "./tabs.js";
import { ValueTable } from "./table.js";
import { call, CallFailed, listen, speakOver } from "./server.js";
import { followPointers, View } from "./view.js";

// Edits of these change nothing that is drawn.
const UNDRAWN = /^[ \t]*(set|unset|column|rule)[ \t]/;
// Edits of one feature, which they name or their answer does.
const OF_FEATURE = /^[ \t]*(?:delete|replace|vertex[ \t]+[a-z]+)[ \t]+([^ \t]+)[ \t]+([0-9]+)/;
// So many changed features are drawn anew one by one.
const CHANGED_MAX = 1_000;
const RENAMING = /^[ \t]*layer[ \t]+rename[ \t]+([^ \t]+)[ \t]+([^ \t]+)/;
const ADDITION = /^[ \t]*(?:add|addhex)[ \t]+([^ \t]+)/;
// Of more layers than this those alone are laid out that the list shows.
const MANY_LAYERS = 500;
const PAN_PIXELS = 60;
// What is smaller on the screen than this is zoomed to.
const SMALL_PIXELS = 12;
// How long a message stands before the count takes its place.
const READ_MILLISECONDS = 4_000;
// How long after a failed look at the map it is tried again at first, and at most: each time it takes twice as long.
const AGAIN_MILLISECONDS = 1_000;
const AGAIN_MILLISECONDS_MAX = 30_000;
const LOST = "The connection is lost. Where sfstore-web was started again, open its new link.";
const OTHER = "Another store, or another grid of it, is behind this page now.";
const GIVEN_UP = `${OTHER} What was begun before is given up: look again.`;
const SAVING = "Save for all? The history begins anew: nobody can undo what was done before.";

class App {
  constructor() {
    const svg = byId("map");
    this.editor = null;
    // Which page this is among those of one person, and the version of the store that it shows.
    this.page = crypto.randomUUID();
    this.version = 0;
    // The store that is shown, and the mark of its grid: what is drawn or typed is meant for these. And the version that is shown.
    this.shown = {};
    this.content = 0;
    this.isShown = false;
    // How long the page waits where it can't look at the map, and for what.
    this.pause = AGAIN_MILLISECONDS;
    this.waiting = 0;
    this.login = new Login();
    this.steps = { undo: null, redo: null };
    // When something was said that a person has to read.
    this.told = 0;
    this.view = new View(svg, () => this.#follow());
    this.place = new Place(this);
    this.background = new Background(byId("background"), this.view);
    this.overlay = new Overlay(byId("overlay"), this.view);
    this.map = new FeatureMap(byId("world"), new Overview(byId("overview"), this.view), this.view, {
      onShown: () => this.#drawn(),
      onCounted: (words) => this.#counted(words),
    });
    this.labels = new Labels(byId("labels"), this.map, this.view);
    this.selection = new Selection(this);
    this.asking = new Asking(this);
    this.tabs = new Tabs((name) => this.#turnTo(name));
    this.table = new ValueTable(this);
    this.history = new HistoryList(this);
    this.sheet = new Sheet(this);
    this.layerEditor = new LayerEditor(this);
    this.drawing = new Drawing(this);
    this.hand = new Hand(this);
    this.log = new Log((line, begun) => this.run(line, begun), () => ({ seen: this.version, shown: this.shown }));
    followPointers(svg, this.view, this.hand);
    svg.addEventListener("keydown", (event) => this.#mapKey(event));
    document.addEventListener("keydown", (event) => this.#anyKey(event));
    this.#wireButtons();
  }

  #wireButtons() {
    byId("undo").onclick = () => this.run("undo");
    byId("redo").onclick = () => this.run("redo");
    byId("save").onclick = async () => (await sure(SAVING, "Save")) && this.run("save");
    byId("zoom-in").onclick = () => this.view.zoom(1.5);
    byId("zoom-out").onclick = () => this.view.zoom(1 / 1.5);
    byId("fit").onclick = () => this.showAll();
    byId("person").onclick = () => this.login.change();
    byId("refusal").querySelector("button").onclick = () => this.#closeRefusal();
  }

  /** Begins when somebody is in. */
  async begin() {
    const { editor, name } = await this.login.enter();
    this.editor = editor;
    byId("person").textContent = name;
    byId("map").focus();
    listen((event) => this.#hear(event), () => this.tell(LOST));
  }

  /** Looks at the layers anew, and shows the whole map. */
  async showAll() {
    const { extent } = await this.#readMap(true);
    if (extent) this.view.fit(extent);
    await this.map.refresh();
  }

  /** Takes the layers of the store and its grid. Where these are others than before, what was begun is given up, and the whole map shown. */

  async #readMap(extent) {
    const [found, { styles, fault }] = await Promise.all([call("map", { extent, store: undefined }), call("styles", {})]);
    // What was asked before may be answered behind what was asked later.
    if (found.content < this.content) return this.#readMap(extent);
    const shown = { store: found.store, grid: found.grid_mark };
    const isFirst = !this.content;
    const isOther = !isFirst && (shown.store !== this.shown.store || shown.grid !== this.shown.grid);
    if (isOther && !extent) return this.#readMap(true);
    this.content = found.content;
    speakOver(found.store);
    if (isOther) this.#letGo();
    if (isFirst || isOther) this.shown = shown;
    this.layerEditor.setFault(fault);
    byId("title").textContent = document.title = found.title;
    this.map.styles = styles;
    this.place.setGrid(found.grid);
    this.background.set(found.background, this.place.units);
    this.map.setLayers(found.layers);
    const listed = JSON.stringify(found.layers.map(({ name, kind }) => [name, kind]));
    // The same lists stay, so that nobody is disturbed who chooses from one.
    if (listed !== this.listed) {
      this.#listLayers();
      this.hand.setLayers(found.layers);
      this.asking.setLayers(found.layers);
    }
    this.listed = listed;
    this.table.setLayers(found.layers);
    this.layerEditor.setLayers(found.layers);
    this.#tellSteps(found);
    if (isOther && found.extent) this.view.fit(found.extent);
    return found;
  }

  /** Has all parts let go of what was begun over another store, or another grid: its places are others here. */
  #letGo() {
    this.#closeRefusal();
    this.tell(OTHER);
    this.hand.letGo(GIVEN_UP);
    this.selection.letGo(GIVEN_UP);
    this.asking.clear();
    this.labels.forget();
    this.map.forget();
  }

  /**
   * Has a line carried out, or a group as one, and shows its answer.
   *
   * `seen` is the version of the store that whoever wrote the line has seen, `shown` the store that was shown then, with its grid.
   */
  async run(line, { isFurther = false, seen = this.version, shown: { store, grid } = this.shown } = {}) {
    const [shown] = line.split("\r");
    const step = this.steps[shown.trim()]?.line ?? shown;
    let answer;
    try {
      answer = await this.#send({ line, page: this.page, seen, units: "map", store, grid });
    } catch (fault) {
      if (fault.status === 409) this.miss(shown, fault.message);
      else if (fault instanceof CallFailed) this.log.add(shown, fault.message, "refused");
      throw fault;
    }
    this.log.addAnswer(shown, answer);
    if (answer.refused) this.#tellRefused(answer.refused);
    else if (answer.undone) this.#tellUndone(answer.undone);
    else {
      this.#closeRefusal();
      if (answer.rows && /^[ \t]*(query|match|nearest|reach)[ \t]/.test(line)) this.asking.take(line.trim(), answer, isFurther);
      else if (answer.answer) {
        this.#rename(renamedBy(shown, step));
        await this.#redraw(shown, changedBy(shown, answer.answer));
      }
    }
    return answer;
  }

  /** Sends a line, and has the person answer before it is carried out where it leads far off the map. */
  async #send(asked) {
    const answer = await call("line", { ...asked, asks: true });
    if (!answer.question) return answer;
    return (await sure(answer.question, "It is meant")) ? call("line", asked) : { text: "Nothing was done: it was not meant." };
  }

  /** Tells of a line that was not carried out, as somebody was there before. */
  miss(line, words) {
    this.log.add(line, words, "refused");
    this.#showWords(words, {});
    this.overlay.showRefused(null, []);
  }

  /** Adds what was drawn to a layer, as that was at a version of the store, and selects it. */
  async draw(layer, wkt, seen) {
    const answer = await this.run(`add ${layer} ${wkt}`, { seen });
    const found = /^ok ([0-9]+)$/.exec(answer.answer ?? "");
    if (found) await this.selection.choose({ layer, id: Number(found[1]) });
  }

  /** Whether something is typed or drawn that was not sent, and would be gone with the page. */
  get hasUnsent() {
    return this.selection.hasTyped || this.log.hasTyped || this.layerEditor.hasTyped || this.hand.hasDrawn;
  }

  mark() {
    this.map.mark(this.selection.place, this.asking.hits);
    this.table.mark();
  }

  /** Moves the map to what is selected, and zooms where that is too large or too small to be seen. */
  showChosen() {
    const { feature } = this.selection;
    if (!feature) return;
    const [left, bottom, right, top] = boxOf(feature.members);
    const [wide, high] = [(right - left) * this.view.scale, (top - bottom) * this.view.scale];
    const isLarge = wide > this.view.width || high > this.view.height;
    const isSmall = right > left && top > bottom && Math.max(wide, high) < SMALL_PIXELS;
    if (isLarge || isSmall) this.view.fitFeature([left, bottom, right, top]);
    else if (!isWithin(this.view.box(), [left, bottom, right, top])) this.view.center((left + right) / 2, (bottom + top) / 2);
  }

  #turnTo(name) {
    if (name === "history") this.history.show();
    if (name === "table") this.table.show(this.table.begin, { around: this.selection.place?.id });
  }

  /** Says something; without words what the window has. */
  tell(words) {
    byId("status").textContent = words || this.countedWords || "";
    this.told = words ? performance.now() : 0;
  }

  /** Says what the window has, once a message has stood for some seconds. */
  #tellCounted(words) {
    this.countedWords = words;
    clearTimeout(this.telling);
    const left = this.told + READ_MILLISECONDS - performance.now();
    if (this.told && left > 0) this.telling = setTimeout(() => this.#tellCounted(words), left);
    else byId("status").textContent = words;
  }

  /** Takes what the server tells all pages. */
  async #hear(event) {
    if (event.hello || event.anew) return this.#lookAnew();
    if (event.styled !== undefined) return this.restyle();
    // How a layer looks in QGIS is nothing that a page shows.
    if (event.qgis_styled !== undefined) return;
    this.#tellSteps(event);
    this.history.changed();
    if (event.saved) this.log.add("save", "The history begins anew.", "", event.saved);
    else if (event.number !== this.editor || event.page !== this.page) {
      const moved = event.line === event.step ? "ok" : event.shown_step;
      this.log.add(event.shown, moved, "other", event.editor);
      const renamed = renamedBy(event.line, event.step);
      this.#rename(renamed, event.version);
      if (!renamed) this.hand.miss(event.changed);
      await this.#redraw(event.line, event.changed);
      if (renamed) this.tell(`${event.editor} renamed ${renamed.join(" to ")}.`);
    }
    this.version = Math.max(this.version, event.version ?? 0);
  }

  /** Takes how layers look now. */
  async restyle() {
    const asked = (this.styling = {});
    const { styles, fault } = await call("styles", {});
    // What was asked later is newer.
    if (asked !== this.styling) return;
    this.layerEditor.setFault(fault);
    await this.map.setStyles(styles);
    this.#restyleList();
    this.layerEditor.show();
    this.labels.follow();
  }

  /** Looks at everything anew. Where it can't be had it is tried again by itself, later each time. */
  async #lookAnew() {
    const looking = (this.looking = {});
    clearTimeout(this.waiting);
    try {
      await this.#lookAtAll();
      this.pause = AGAIN_MILLISECONDS;
    } catch (fault) {
      // What was begun later tries it again.
      if (looking !== this.looking) return;
      this.tell(`The map is not shown as it is now, and is tried again in ${this.pause / 1_000} s. ${fault.message}`);
      this.waiting = setTimeout(() => this.#lookAnew(), this.pause);
      this.pause = Math.min(2 * this.pause, AGAIN_MILLISECONDS_MAX);
    }
  }

  /** Looks at everything, at first at the whole map. */
  async #lookAtAll() {
    const before = this.shown;
    const { version, extent, grid_fault: fault } = await this.#readMap(!this.isShown);
    const isMoved = this.isShown && this.shown !== before;
    if (extent && !this.isShown) this.view.fit(extent);
    if (fault && (isMoved || !this.isShown)) this.#showWords("Coordinates are no longer those of the map.", { reason: fault });
    this.isShown = true;
    await this.map.refresh();
    await this.selection.refresh();
    this.history.changed();
    this.version = Math.max(this.version, version);
  }

  /** Draws what an edit has changed: single features, or what is not known so exactly. */
  async #redraw(line, changed) {
    const first = line.trim().split(/[ \t]+/)[0];
    const isKnown = ({ what, layer, id }) => layer && id !== null && what !== "columns" && what !== "layers";
    const isOfFeatures = changed?.length <= CHANGED_MAX && changed.every(isKnown);
    if (isOfFeatures) await this.map.redraw(changed);
    else if (!UNDRAWN.test(line)) {
      await this.#readMap(false);
      await this.map.refresh();
    } else if (first === "column") await this.#readMap(false);
    this.table.changed();
    this.labels.forget(isOfFeatures ? changed : null);
    await this.selection.refresh();
  }

  /** Has all parts follow a layer to another name, which somebody else has given it by a version of the store: whoever works on it goes on. */
  #rename(renamed, version) {
    if (!renamed) return;
    for (const part of [this.map, this.selection, this.hand, this.asking, this.table, this.layerEditor]) part.rename(...renamed, version);
  }

  #tellSteps({ undo, redo }) {
    this.steps = { undo, redo };
    for (const [name, step] of [["undo", undo], ["redo", redo]]) {
      const whose = step && (step.number === this.editor ? "" : ` (${step.editor}'s)`);
      byId(name).title = step ? `${step.shown.slice(0, 80)}${whose}` : `There is nothing to ${name}`;
    }
  }

  #tellRefused(refused) {
    const { place, whose, member, broken } = refused;
    const which = member ? `, line ${member} of the group` : "";
    if (broken) this.#tellBroken(refused, which);
    else {
      this.#showWords(`Refused (${refused.number} ${refused.name})${which}: ${refused.reason}.`, {
        reason: whose ? `The next step is ${whose.editor}'s: ${whose.shown}` : "",
        place: place ? `${place.shown}.` : "",
        help: refused.help,
      });
    }
    const breaking = (broken?.features ?? []).filter((feature) => feature.members);
    this.overlay.showRefused(refused.members ? refused : null, place?.points ?? [], breaking);
    if (place?.points.length) this.#uncover(place.points[0]);
    else if (breaking.length) this.#visit(boxOf(breaking[0].members));
  }

  /** Moves the map to a box where it shows nothing of it. */
  #visit([left, bottom, right, top]) {
    const [west, south, east, north] = this.view.box();
    if (left > east || right < west || bottom > north || top < south) this.view.fitFeature([left, bottom, right, top]);
  }

  /** Tells what would be if the edit were made, what helps, and which rule forbids it. */
  #tellBroken({ number, name, broken }, which) {
    const added = broken.features.filter((feature) => !feature.members).map(({ layer, id }) => `; ${layer} ${id} is the new one`);
    this.#showWords(`Refused${which}: ${broken.sentence}${added.join("")}.`, {
      reason: broken.remedy,
      help: `The rule is ${broken.rule} (${number} ${name}).`,
    });
  }

  /** Tells why a tool has made nothing, and shows where. */
  #tellUndone({ words, points }) {
    this.#showWords("Not done, and nothing has changed.", { reason: `${words}.` });
    this.overlay.showRefused(null, points);
    if (points.length) this.#uncover(points[0]);
  }

  #showWords(title, { reason = "", place = "", help = "" }) {
    const box = byId("refusal");
    box.querySelector("h2").textContent = title;
    for (const [name, words] of Object.entries({ reason, place, help })) box.querySelector(`.${name}`).textContent = words;
    box.hidden = false;
  }

  /** Moves the map where the words hide a place that they tell of, or it lies out of the window. */
  #uncover(point) {
    this.#visit(boxOf([[point]]));
    const box = byId("refusal").getBoundingClientRect();
    const frame = this.view.svg.getBoundingClientRect();
    const [left, top] = this.view.toPixels(...point);
    const isHidden = left > box.left - frame.left && left < box.right - frame.left && top > 0 && top < box.bottom - frame.top;
    if (isHidden) this.view.pan(0, box.bottom - frame.top + PAN_PIXELS - top);
  }

  #closeRefusal() {
    byId("refusal").hidden = true;
    this.overlay.showRefused(null, []);
  }

  #drawn() {
    this.selection.showHandles();
    this.labels.follow();
  }

  #counted(words) {
    this.#tellCounted(words);
    this.#tellCounts();
    this.labels.follow();
    this.table.moved();
  }

  #tellCounts() {
    for (const note of byId("layers").querySelectorAll("[data-count]")) {
      const layer = this.map.layer(note.dataset.count);
      const isVisible = layer && this.map.isVisible(layer);
      const words = isVisible ? counted(layer.inside) : layer?.shown ? "not at this scale" : "";
      if (note.textContent !== words) note.textContent = words;
      note.closest("li").classList.toggle("unseen", !isVisible);
    }
  }

  #listLayers() {
    byId("layers").classList.toggle("many", this.map.layers.length > MANY_LAYERS);
    byId("layers").replaceChildren(...this.map.layers.map((layer, place) => this.#layerItem(layer, place)));
    this.#tellCounts();
  }

  /** Shows in the list how layers look now. Its parts stay, so that nobody is disturbed who uses one. */
  #restyleList() {
    for (const item of byId("layers").children) {
      const layer = this.map.layer(item.dataset.layer);
      if (!layer) continue;
      item.querySelector("input").checked = layer.shown;
      item.querySelector(".swatch").replaceWith(swatch(layer.style, layer.kind, layer.tint));
    }
    this.#tellCounts();
  }

  #layerItem({ name, kind, shown }, place) {
    const box = element("input", { type: "checkbox", checked: shown });
    box.onchange = () => this.map.setShown(name, box.checked);
    const count = element("span", { className: "note count" });
    count.dataset.count = name;
    const picture = swatch(this.map.layer(name).style, kind, `tint-${place % 8}`);
    const label = element("label", {}, box, picture, element("span", { className: "name" }, name), element("span", { className: "note kind", title: kind }, kind));
    const edit = element("button", { type: "button", className: "quiet", ariaLabel: `Edit ${name}`, title: `Style, labels, columns and name of ${name}` }, "⋯");
    edit.onclick = () => this.layerEditor.open(name);
    const item = element("li", {}, label, count, edit);
    item.dataset.layer = name;
    return item;
  }

  #follow() {
    this.map?.follow();
    this.overlay?.place();
    this.place?.follow();
    this.labels?.follow();
    this.background?.follow();
    this.layerEditor?.follow();
  }

  #mapKey(event) {
    if (event.ctrlKey || event.metaKey) return;
    const action = this.#mapActions(event.shiftKey)[event.key.length === 1 ? event.key.toLowerCase() : event.key];
    if (!action) return;
    event.preventDefault();
    action();
  }

  #mapActions(isFine) {
    const { view, hand, selection } = this;
    const pan = (x, y) => () => (isFine ? view.panSteps(x, y) : view.pan(-x * PAN_PIXELS, y * PAN_PIXELS));
    const middle = [view.width / 2, view.height / 2];
    return {
      ArrowLeft: pan(-1, 0),
      ArrowRight: pan(1, 0),
      ArrowUp: pan(0, 1),
      ArrowDown: pan(0, -1),
      "+": () => view.zoom(1.5),
      "=": () => view.zoom(1.5),
      "-": () => view.zoom(1 / 1.5),
      0: () => this.showAll(),
      " ": () => hand.click({}, middle),
      Enter: () => hand.finish(),
      Backspace: () => hand.takeBack(),
      Escape: () => this.#escape(),
      Delete: () => selection.delete(),
      n: () => this.#step(1),
      p: () => this.#step(-1),
      v: () => selection.focusFirst(),
      s: () => hand.setTool("split"),
      m: () => hand.setTool("merge"),
      b: () => hand.setTool("border"),
      k: () => hand.setTool("node"),
      h: () => hand.setTool("hole"),
      f: () => hand.setTool("fill"),
    };
  }

  #escape() {
    if (this.hand.points.length || this.drawing.from) this.hand.giveUp();
    else if (!byId("refusal").hidden) this.#closeRefusal();
    else this.hand.setTool("select");
  }

  /** Selects the feature that is drawn after or before the one that is selected. */
  #step(by) {
    const all = [...this.map.drawnFeatures()].map(([layer, { id }]) => ({ layer: layer.name, id }));
    const chosen = this.selection.wanted;
    const at = all.findIndex(({ layer, id }) => layer === chosen?.layer && id === chosen.id);
    const next = all[(at < 0 && by < 0 ? all.length : at) + by] ?? all.at(by > 0 ? 0 : -1);
    if (next) this.selection.choose(next);
  }

  #anyKey(event) {
    if (!(event.ctrlKey || event.metaKey) || event.altKey || event.target.matches("input, textarea")) return;
    const key = event.key.toLowerCase();
    const line = key === "y" || (key === "z" && event.shiftKey) ? "redo" : key === "z" ? "undo" : "";
    if (!line) return;
    event.preventDefault();
    this.run(line);
  }
}

/** The feature that an accepted line has changed; nothing where it is not told so exactly. */
function changedBy(line, answer) {
  const [, layer, id] = OF_FEATURE.exec(line) ?? [null, ADDITION.exec(line)?.[1], /^ok ([0-9]+)$/.exec(answer)?.[1]];
  return layer && id ? [{ what: "changed", layer, id: Number(id) }] : undefined;
}

/** The names of a layer before and after an accepted line, which made a step or moved it; nothing where it renamed none. */
function renamedBy(line, step) {
  const [, ...names] = RENAMING.exec(step) ?? [];
  return names.length ? (line.trim() === "undo" ? names.reverse() : names) : null;
}

const app = new App();
addEventListener("beforeunload", (event) => {
  // The browser asks, in its own words.
  if (app.hasUnsent) event.preventDefault();
});
addEventListener("unhandledrejection", (event) => {
  if (!(event.reason instanceof CallFailed)) return;
  event.preventDefault();
  app.tell(event.reason.message);
});
app.begin();
