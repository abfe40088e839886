// Tiles of another server under the map, where whoever runs this one allows it.

import { byId, drawn } from "./dom.js";

// The reference systems of the web's tiles, by the names that they have had.
const SYSTEMS = new Set(["EPSG:3857", "EPSG:900913", "EPSG:102100", "EPSG:102113", "ESRI:102100"]);
// Half the side of the square that tiles part, in metres of this reference system, and how many pixels a tile has.
const HALF = 20037508.342789244;
const TILE_PIXELS = 256;
const LEVEL_MAX = 19;
const TILES_MAX = 200;

export class Background {
  constructor(group, view) {
    this.group = group;
    this.view = view;
    this.given = null;
    this.tiles = new Map();
    byId("background-shown").onchange = () => this.follow();
  }

  /** Takes where tiles come from, if anybody allows it, and the coordinates of the map. */
  set(given, units) {
    this.given = given;
    this.units = units;
    this.isPlaced = SYSTEMS.has(units.system);
    byId("background-row").hidden = !given;
    byId("background-shown").disabled = !this.isPlaced;
    byId("background-note").textContent = given && !this.isPlaced ? "needs a map in EPSG:3857" : "";
    this.follow();
  }

  /** Shows the tiles that the view has. */
  follow() {
    const isShown = Boolean(this.given && this.isPlaced && byId("background-shown").checked);
    byId("credit").textContent = isShown ? this.given.credit : "";
    const wanted = isShown ? this.#wanted() : new Map();
    for (const [key, tile] of this.tiles) if (!wanted.has(key)) tile.remove();
    this.tiles = new Map([...wanted].map(([key, place]) => [key, this.#tile(key, place)]));
  }

  /** The tiles of the level whose pixels are nearest to those of the screen. */
  #wanted() {
    const { view, units } = this;
    const pixelMetres = units.size / view.scale;
    const level = Math.min(LEVEL_MAX, Math.max(0, Math.round(Math.log2((2 * HALF) / TILE_PIXELS / pixelMetres))));
    const count = 2 ** level;
    const side = (2 * HALF) / count;
    const [left, bottom, right, top] = view.box();
    const [west, south] = units.near([left, bottom]);
    const [east, north] = units.near([right, top]);
    const column = (x) => Math.min(count - 1, Math.max(0, Math.floor((x + HALF) / side)));
    const row = (y) => Math.min(count - 1, Math.max(0, Math.floor((HALF - y) / side)));
    const found = new Map();
    if ((column(east) - column(west) + 1) * (row(south) - row(north) + 1) > TILES_MAX) return found;
    for (let x = column(west); x <= column(east); x++) {
      for (let y = row(north); y <= row(south); y++) {
        const pixels = side / pixelMetres;
        const place = { left: (x * side - HALF - west) / pixelMetres, top: (north - (HALF - y * side)) / pixelMetres, pixels, level, x, y };
        found.set(`${level} ${x} ${y}`, place);
      }
    }
    return found;
  }

  #tile(key, { left, top, pixels, level, x, y }) {
    const tile = this.tiles.get(key) ?? drawn("image", { href: this.given.address.replace("{z}", level).replace("{x}", x).replace("{y}", y) });
    for (const [name, value] of Object.entries({ x: left, y: top, width: pixels, height: pixels })) tile.setAttribute(name, value.toFixed(2));
    if (!tile.isConnected) this.group.append(tile);
    return tile;
  }
}
