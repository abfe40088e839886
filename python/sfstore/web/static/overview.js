// Layers with more features than can be drawn: pictures of them in square tiles, on a canvas under the map.

import { call } from "./server.js";

// Cells to a side of a tile, and the level at which one is as wide as the grid.
const SIDE = 256;
const LEVEL_MAX = 23;
// How many tiles are asked for at a time, and how many are kept.
const ASKED_MAX = 32;
const KEPT_MAX = 600;
// How many levels above a tile its place is looked for in a coarser one, until it comes.
const COARSER_MAX = 5;

export class Overview {
  constructor(canvas, view) {
    this.canvas = canvas;
    this.view = view;
    this.layers = [];
    this.tiles = new Map();
    matchMedia("(prefers-color-scheme: dark)").onchange = () => this.place();
  }

  /** Shows these layers, the lowest first, each with a function that gives its colour. */
  show(layers) {
    this.layers = layers;
    this.place();
    return this.refresh();
  }

  /** Draws what is known where the view has it now. */
  place() {
    if (this.drawing) return;
    this.drawing = requestAnimationFrame(() => {
      this.drawing = 0;
      this.#draw();
    });
  }

  /** Asks for what the view has, also for what may have changed. Further calls meanwhile make one more round. */
  refresh() {
    this.wanted = true;
    this.running ??= this.#fetch().finally(() => (this.running = null));
    return this.running;
  }

  /** Shows nothing, until it is told again what to show. */
  forget() {
    this.layers = [];
    this.tiles = new Map();
    this.place();
  }

  /** How many features of each layer a box has at least, as far as tiles tell it. */
  least([left, bottom, right, top]) {
    const most = new Map();
    for (const { layer, level, x, y, count } of this.tiles.values()) {
      const size = SIDE * 2 ** level;
      const isWithin = x * size >= left && y * size >= bottom && (x + 1) * size <= right && (y + 1) * size <= top;
      if (isWithin) most.set(layer, Math.max(most.get(layer) ?? 0, count));
    }
    return most;
  }

  /** The level whose cells have from one pixel to two. */
  #level() {
    return Math.min(LEVEL_MAX, Math.max(0, Math.ceil(-Math.log2(this.view.scale))));
  }

  /** The tiles of a level that the view shows, from the middle outwards. */
  #shown(level) {
    const size = SIDE * 2 ** level;
    const [left, bottom, right, top] = this.view.box().map((side) => Math.floor(side / size));
    const found = [];
    for (let x = left; x <= right; x++) for (let y = bottom; y <= top; y++) found.push([x, y]);
    const [middleX, middleY] = [this.view.x / size - 0.5, this.view.y / size - 0.5];
    const far = ([x, y]) => Math.hypot(x - middleX, y - middleY);
    return found.sort((a, b) => far(a) - far(b));
  }

  async #fetch() {
    while (this.wanted) {
      this.wanted = false;
      const start = performance.now();
      for (const { name } of this.layers) {
        let isWhole = false;
        while (!isWhole && !this.wanted) isWhole = await this.#ask(name);
      }
      if (!this.wanted && this.layers.length) performance.measure("overview", { start });
    }
  }

  /** Asks for a layer's tiles in the view, and says whether all of them are whole. */
  async #ask(layer) {
    const level = this.#level();
    const shown = this.#shown(level);
    const { tiles: kept } = this;
    let isWhole = true;
    for (let begin = 0; begin < shown.length; begin += ASKED_MAX) {
      const tiles = shown.slice(begin, begin + ASKED_MAX).map(([x, y]) => [x, y, kept.get(keyOf(layer, level, x, y))?.version ?? 0]);
      const answer = await call("pictures", { layer, level, tiles });
      await Promise.all(answer.tiles.map((told) => this.#take(kept, layer, level, told)));
      this.place();
      isWhole &&= answer.tiles.every((told) => told.whole);
    }
    return isWhole;
  }

  /** Keeps a tile among those of the store for which it was asked. */
  async #take(tiles, layer, level, { x, y, count, version, png }) {
    const key = keyOf(layer, level, x, y);
    const known = tiles.get(key);
    if (known?.version === version) return;
    tiles.delete(key);
    tiles.set(key, { layer, level, x, y, count, version, picture: png && (await createImageBitmap(blobOf(png))), tinted: null });
    // The oldest go, which nobody has asked for since.
    for (const oldest of tiles.keys()) {
      if (tiles.size <= KEPT_MAX) break;
      tiles.delete(oldest);
    }
  }

  #draw() {
    const { canvas, view } = this;
    const ratio = devicePixelRatio || 1;
    const [width, height] = [Math.round(view.width * ratio), Math.round(view.height * ratio)];
    if (canvas.width !== width || canvas.height !== height) Object.assign(canvas, { width, height });
    const pen = canvas.getContext("2d");
    pen.setTransform(ratio, 0, 0, ratio, 0, 0);
    pen.clearRect(0, 0, view.width, view.height);
    pen.imageSmoothingEnabled = false;
    const level = this.#level();
    const shown = this.layers.length ? this.#shown(level) : [];
    // Of very many layers few have a picture yet.
    const drawn = new Set([...this.tiles.values()].map(({ layer }) => layer));
    for (const { name, colour } of this.layers.filter((layer) => drawn.has(layer.name))) {
      const tint = colour();
      for (const [x, y] of shown) this.#drawTile(pen, name, tint, level, x, y);
    }
  }

  /** Draws a tile, or as long as it is not there the part of a coarser one. */
  #drawTile(pen, layer, tint, level, x, y) {
    const size = SIDE * 2 ** level;
    const [left, top] = this.view.toPixels(x * size, (y + 1) * size);
    const wide = size * this.view.scale;
    for (let up = 0; up <= COARSER_MAX; up++) {
      const part = 2 ** up;
      const [atX, atY] = [Math.floor(x / part), Math.floor(y / part)];
      const tile = this.tiles.get(keyOf(layer, level + up, atX, atY));
      if (!tile) continue;
      if (!tile.picture) return;
      const cells = SIDE / part;
      const [column, row] = [x - atX * part, part - 1 - (y - atY * part)];
      pen.drawImage(tintedOf(tile, tint), column * cells, row * cells, cells, cells, left, top, wide, wide);
      return;
    }
  }
}

const keyOf = (layer, level, x, y) => `${layer} ${level} ${x} ${y}`;

function blobOf(png) {
  return new Blob([Uint8Array.from(atob(png), (letter) => letter.charCodeAt(0))], { type: "image/png" });
}

/** A tile's picture in a colour: it is black, and as opaque as there is something. */
function tintedOf(tile, tint) {
  if (tile.tinted?.tint === tint) return tile.tinted.canvas;
  const canvas = new OffscreenCanvas(SIDE, SIDE);
  const pen = canvas.getContext("2d");
  pen.drawImage(tile.picture, 0, 0);
  pen.globalCompositeOperation = "source-in";
  pen.fillStyle = tint;
  pen.fillRect(0, 0, SIDE, SIDE);
  tile.tinted = { tint, canvas };
  return canvas;
}
