// The map: layers in drawing order, and of each what the window has.

import { counted, drawn } from "./dom.js";
import { boxOf, GRID_MAX, GRID_MIN, isHit, isInBox, KINDS, meetsBox, nearestOnEdge, onGrid, pathOf } from "./geometry.js";
import { call } from "./server.js";
import { formPath, isAtScale, isForm, putOn, sizeOf, wholeStyle } from "./styles.js";

// How much around the window is asked for, as a part of its sides.
const MARGIN = 0.25;
// How long the view rests before what it shows is asked for.
const REST_MILLISECONDS = 120;
// How far, in pixels, paths may lie from the point that they count from: browsers draw with single precision.
const FAR_PIXELS = 50_000;
// So many symbols are drawn anew with each step of a zoom; more of them once it rests.
const FORMS_MAX = 1_000;
// Of so many layers it is told what they have that is not drawn one by one.
const TOLD_MAX = 5;

export class FeatureMap {
  /** `onShown` is called once something else is drawn, `onCounted` with a sentence once the window has something else. */
  constructor(world, overview, view, { onShown, onCounted }) {
    this.world = world;
    this.overview = overview;
    this.view = view;
    this.onShown = onShown;
    this.onCounted = onCounted;
    this.layers = [];
    // There may be very many: none is searched in a list.
    this.byName = new Map();
    this.origin = null;
    this.seen = null;
    // What is another number once another store, or another grid, is behind the page: what was asked before shows nothing.
    this.turn = 0;
    this.chosen = null;
    this.hits = new Map();
    this.styles = {};
    // More features than this are not drawn one by one, as the server says with each window.
    this.most = Infinity;
  }

  /** Takes the layers of the store; those that were hidden stay so. */
  setLayers(layers) {
    const before = this.byName;
    this.layers = layers.map((layer, place) => {
      const style = wholeStyle(this.styles[layer.name]);
      const known = before.get(layer.name) ?? { shown: style.isShown, inside: 0, features: new Map(), group: drawn("g"), pointSize: style.size };
      const tint = `tint-${place % 8}`;
      known.group.setAttribute("class", `layer ${tint}`);
      putOn(known.group, style, layer.kind);
      return Object.assign(known, layer, { style, tint });
    });
    this.byName = new Map(this.layers.map((layer) => [layer.name, layer]));
    this.#showLayers();
  }

  /** Has nothing drawn, as everything lies elsewhere. */
  forget() {
    this.turn += 1;
    this.seen = null;
    this.isStale = true;
    for (const layer of this.layers) {
      Object.assign(layer, { inside: 0, isCounted: false, features: new Map() });
      layer.group.replaceChildren();
    }
    this.overview.forget();
  }

  /** Follows a layer to another name: whoever has turned it off does not see it. */
  rename(before, after) {
    const layer = this.layer(before);
    if (!layer) return;
    layer.name = after;
    this.byName.delete(before);
    this.byName.set(after, layer);
    for (const { id, path } of layer.features.values()) path.id = `${after}-${id}`;
  }

  /** Takes how layers look, and draws them so. */
  setStyles(styles) {
    this.styles = styles;
    for (const layer of this.layers) {
      const isShown = wholeStyle(styles[layer.name]).isShown;
      // Who sees a layer that others turn off or on sees that too.
      if (isShown !== layer.style.isShown) layer.shown = isShown;
    }
    this.setLayers(this.layers);
    for (const layer of this.layers) this.#drawForms(layer);
    return this.layers.length ? this.refresh() : undefined;
  }

  /** Whether a layer is turned on, and is shown at this scale. */
  isVisible(layer) {
    return layer.shown && isAtScale(layer.style, this.view.denominator);
  }

  /** The layers that are seen, the lowest first. */
  get visibleLayers() {
    return this.layers.filter((layer) => this.isVisible(layer));
  }

  /** Has those layers drawn that are seen, and says whether they are others than before. */
  #showLayers() {
    const groups = this.visibleLayers.map((layer) => layer.group);
    const isOther = groups.length !== this.world.children.length || groups.some((group, place) => group !== this.world.children[place]);
    if (isOther) {
      this.world.replaceChildren(...groups);
      this.isStale = true;
    }
  }

  layer(name) {
    return this.byName.get(name);
  }

  setShown(name, shown) {
    this.layer(name).shown = shown;
    this.setLayers(this.layers);
    return this.refresh();
  }

  /** Moves what is drawn along with the view, and asks for what is not there yet. */
  follow() {
    this.#showLayers();
    this.#place();
    this.overview.place();
    clearTimeout(this.rest);
    this.rest = setTimeout(() => this.#rest(), REST_MILLISECONDS);
  }

  /** Asks for what is not there, or counts what is. */
  #rest() {
    if (!this.layers.length) return;
    if (this.#hasAll()) this.#count();
    else this.refresh();
  }

  /** Asks for what the window has, and draws it. Further calls meanwhile make one more round. */
  refresh() {
    this.wanted = true;
    this.running ??= this.#fetch().finally(() => (this.running = null));
    return this.running;
  }

  async #fetch() {
    while (this.wanted) {
      this.wanted = false;
      this.isStale = false;
      const start = performance.now();
      const asked = { box: this.#box(), scale: this.view.scale, view: this.#viewed() };
      this.coming = asked;
      const { turn } = this;
      const layers = await this.#window(asked.box).finally(() => (this.coming = null));
      if (turn !== this.turn) {
        this.wanted = true;
        continue;
      }
      this.#show(layers);
      this.seen = asked;
      this.onShown();
      this.#count();
      performance.measure("window", { start });
    }
  }

  /** What a box has. Layers that are known to have too much there are not asked for. */
  async #window(box) {
    const shown = this.visibleLayers.map((layer) => layer.name);
    const { window } = this;
    const least = this.overview.least(window);
    const isKnown = (name) => (least.get(name) ?? 0) > this.most;
    const known = shown.filter(isKnown).map((name) => ({ name, inside: least.get(name), features: null, isLeast: true }));
    const asked = shown.filter((name) => !isKnown(name));
    const answer = await call("window", { box, window, layers: asked });
    this.most = answer.most;
    return [...answer.layers, ...known];
  }

  /** Draws features anew that were changed, where nothing else was. */
  redraw(places) {
    const drawing = () => this.#redraw(places);
    // One after another, behind a window that is on its way: what comes later is newer.
    this.redrawing = Promise.allSettled([this.redrawing, this.running]).then(drawing);
    return this.redrawing;
  }

  async #redraw(places) {
    const byLayer = new Map();
    for (const { layer, id } of places) byLayer.set(layer, [...(byLayer.get(layer) ?? []), id]);
    for (const [name, ids] of byLayer) {
      const layer = this.layer(name);
      if (layer && this.isVisible(layer) && !layer.isCounted) await this.#redrawSome(layer, ids);
    }
    if (this.layers.some((layer) => layer.isCounted)) this.overview.refresh();
  }

  async #redrawSome(layer, ids) {
    const { turn } = this;
    const { features } = await call("shapes", { layer: layer.name, ids });
    // Where nothing is drawn yet, the window that comes has them.
    if (layer.isCounted || turn !== this.turn || !this.seen) return;
    for (const id of ids) this.#takeOut(layer, id);
    for (const [id, code, members] of features) {
      const [left, bottom, right, top] = boxOf(members);
      const [l, b, r, t] = this.seen.box;
      if (left <= r && right >= l && bottom <= t && top >= b) this.#putIn(layer, id, code, members);
    }
    this.onShown();
    this.#count();
  }

  #takeOut(layer, id) {
    layer.features.get(id)?.path.remove();
    layer.features.delete(id);
  }

  /** Puts a feature where it belongs among those of its layer, which are drawn in the order of identifiers. */
  #putIn(layer, id, code, members) {
    const feature = this.#feature(layer, id, code, members);
    feature.path.setAttribute("d", feature.d);
    const later = [...layer.features.values()].filter((other) => other.id > id);
    layer.group.insertBefore(feature.path, later[0]?.path ?? null);
    for (const other of later) layer.features.delete(other.id);
    for (const each of [feature, ...later]) layer.features.set(each.id, each);
    this.#mark(layer, feature);
  }

  /** What the window shows, on the grid. */
  get window() {
    return this.#box(0);
  }

  #box(margin = MARGIN) {
    const kept = (value) => Math.min(GRID_MAX, Math.max(GRID_MIN, value));
    const [left, bottom, right, top] = this.view.box(margin);
    return [kept(Math.floor(left)), kept(Math.floor(bottom)), kept(Math.ceil(right)), kept(Math.ceil(top))];
  }

  /** What the view shows just now. */
  #viewed() {
    return this.view.box().join(" ");
  }

  /** Whether what the window has is drawn already, or is about to come. */
  #hasAll() {
    if (this.isStale) return false;
    if (this.coming) return this.coming.view === this.#viewed();
    if (this.seen?.view === this.#viewed()) return true;
    if (!this.seen || this.visibleLayers.some((layer) => layer.isCounted)) return false;
    const [left, bottom, right, top] = this.view.box();
    const near = this.view.scale < this.seen.scale * 3;
    return near && isInBox(this.seen.box, left, bottom, 1) && isInBox(this.seen.box, right, top, 1);
  }

  #show(layers) {
    const moved = this.#moveOrigin();
    for (const { name, inside = 0, features, isLeast = false } of layers) {
      const layer = this.layer(name);
      if (!layer) continue;
      Object.assign(layer, { inside, isLeast, isCounted: features === null });
      this.#showFeatures(layer, features ?? [], moved);
    }
    this.#place();
    this.#showCounted();
  }

  /** Has the overview show the layers that are not drawn feature by feature. */
  #showCounted() {
    const crowded = this.visibleLayers.filter((layer) => layer.isCounted);
    this.overview.show(crowded.map((layer) => ({ name: layer.name, colour: () => getComputedStyle(layer.group).color })));
  }

  #showFeatures(layer, features, moved) {
    const before = layer.features;
    layer.features = new Map();
    for (const [id, code, members] of features) {
      const known = before.get(id);
      before.delete(id);
      const feature = this.#feature(layer, id, code, members, known?.path);
      if (moved || feature.d !== known?.d) feature.path.setAttribute("d", feature.d);
      layer.features.set(id, feature);
      this.#mark(layer, feature);
    }
    setChildren(layer.group, [...layer.features.values()].map((feature) => feature.path));
  }

  /** A feature with its path, whose form is not set yet. */
  #feature(layer, id, code, members, path = drawn("path", { id: `${layer.name}-${id}` })) {
    const place = (x, y) => [x - this.origin[0], this.origin[1] - y];
    const d = isOfForm(layer, code) ? this.#formPath(layer, members, place) : pathOf(code, members, place);
    return { id, code, members, path, d, box: boxOf(members) };
  }

  /** The symbols of a feature of points: each as large on the screen as its layer's points are just now. */
  #formPath(layer, members, place) {
    const size = layer.pointSize / this.view.scale;
    return members.flat().map(([x, y]) => formPath(layer.style.symbol, place(x, y), size)).join("");
  }

  /** Draws the points of a layer anew whose symbols have a form, or have had one. */
  #drawForms(layer) {
    for (const feature of layer.features.values()) {
      if (feature.code !== 1 && feature.code !== 4) continue;
      const { d } = this.#feature(layer, feature.id, feature.code, feature.members, feature.path);
      if (d !== feature.d) feature.path.setAttribute("d", (feature.d = d));
      this.#mark(layer, feature);
    }
  }

  /** Has symbols as large on the screen as they were before a zoom. */
  #keepForms(most) {
    for (const layer of this.visibleLayers) {
      if (!isForm(layer.style.symbol) || layer.features.size > most || layer.formScale === this.view.scale) continue;
      layer.formScale = this.view.scale;
      this.#drawForms(layer);
    }
  }

  /** Has points as large as their count in the window has room for. */
  #sizePoints() {
    for (const layer of this.visibleLayers) {
      const size = sizeOf(layer.style, layer.inside, this.view.width * this.view.height);
      layer.group.style.setProperty("--size", `${size}px`);
      if (size === layer.pointSize) continue;
      layer.pointSize = size;
      if (isForm(layer.style.symbol)) this.#drawForms(layer);
    }
  }

  /** Has paths count from the middle of the window, where that is far from where they counted from. */
  #moveOrigin() {
    const { x, y, scale } = this.view;
    const far = this.origin && Math.max(Math.abs(x - this.origin[0]), Math.abs(y - this.origin[1])) * scale;
    if (this.origin && far < FAR_PIXELS) return false;
    this.origin = onGrid(x, y);
    return true;
  }

  #place() {
    if (!this.origin) return;
    const { scale } = this.view;
    const [left, top] = this.view.toPixels(...this.origin);
    this.world.setAttribute("transform", `matrix(${scale} 0 0 ${scale} ${left} ${top})`);
    this.#keepForms(FORMS_MAX);
  }

  #mark(layer, feature) {
    const isChosen = this.chosen?.layer === layer.name && this.chosen.id === feature.id;
    const isFound = this.hits.get(layer.name)?.has(feature.id);
    const words = `feature ${KINDS[feature.code]}${isOfForm(layer, feature.code) ? " form" : ""}${isFound ? " hit" : ""}${isChosen ? " chosen" : ""}`;
    if (feature.path.getAttribute("class") !== words) feature.path.setAttribute("class", words);
  }

  /** Marks what is selected and what was found. The marks stay through every redraw. */
  mark(chosen, hits) {
    this.chosen = chosen;
    this.hits = hits;
    for (const layer of this.layers) for (const feature of layer.features.values()) this.#mark(layer, feature);
  }

  /** The features that are drawn, the lowest first. */
  *drawnFeatures() {
    for (const layer of this.visibleLayers) {
      for (const feature of layer.features.values()) yield [layer, feature];
    }
  }

  /** The uppermost feature at a place, or none. */
  pick(x, y, reach) {
    let found = null;
    for (const [layer, feature] of this.drawnFeatures()) {
      if (isInBox(feature.box, x, y, reach) && isHit(feature.code, feature.members, x, y, reach)) {
        found = { layer: layer.name, id: feature.id };
      }
    }
    return found;
  }

  /** The point of the grid that is meant by a place: a vertex that is near, one on an edge, or the nearest. */
  snap(x, y, reach, except = null) {
    let best = { far: reach, point: null };
    let edge = { far: reach, point: null };
    for (const [layer, feature] of this.drawnFeatures()) {
      if (!isInBox(feature.box, x, y, reach)) continue;
      if (except && except.layer === layer.name && except.id === feature.id) continue;
      for (const line of feature.members.flat()) {
        for (let at = 0; at < line.length; at += 2) {
          best = nearer(best, [line[at], line[at + 1]], x, y);
          edge = nearer(edge, onGrid(...nearestOnEdge(line, at, x, y)), x, y);
        }
      }
    }
    return best.point ?? edge.point ?? onGrid(x, y);
  }

  /** Counts what the window has of each layer: of those that are drawn here, of the others the server has counted it. */
  #count() {
    const box = this.window;
    for (const layer of this.visibleLayers.filter((each) => !each.isCounted)) {
      layer.inside = 0;
      for (const { code, members, box: own } of layer.features.values()) layer.inside += meetsBox(code, members, own, box);
    }
    this.#sizePoints();
    this.#keepForms(Infinity);
    this.onCounted(this.#words());
  }

  /** How many features the window has, and how many of them are drawn one by one. */
  #words() {
    const shown = this.visibleLayers;
    const crowded = shown.filter((layer) => layer.isCounted);
    const sum = (layers) => layers.reduce((total, { inside }) => total + inside, 0);
    const drawnCount = sum(shown) - sum(crowded);
    const whole = `${countedFeatures(sum(shown), crowded.some(({ isLeast }) => isLeast))} in the window`;
    if (!crowded.length) return `${whole}, all drawn.`;
    const told = crowded.slice(0, TOLD_MAX).map(({ name, inside, isLeast }) => `${name} has ${isLeast ? "over " : ""}${counted(inside)} here: zoom in to see them.`);
    const more = crowded.length > TOLD_MAX ? [`So do ${counted(crowded.length - TOLD_MAX)} layers more.`] : [];
    return [`${whole}, ${counted(drawnCount)} drawn one by one.`, ...told, ...more].join(" ");
  }
}

const isOfForm = (layer, code) => (code === 1 || code === 4) && isForm(layer.style.symbol);

const countedFeatures = (count, isLeast) => `${isLeast ? "Over " : ""}${counted(count)} ${count === 1 ? "feature" : "features"}`;

/** Gives an element children, where they are not the same already. */
function setChildren(parent, children) {
  const isSame = parent.children.length === children.length && children.every((child, place) => child === parent.children[place]);
  if (!isSame) parent.replaceChildren(...children);
}

function nearer(best, point, x, y) {
  const far = Math.hypot(point[0] - x, point[1] - y);
  return far < best.far ? { far, point } : best;
}
