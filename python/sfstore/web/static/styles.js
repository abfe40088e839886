// How layers look: what a style has where it says nothing, and how it is put on what is drawn.

import { drawn } from "./dom.js";

// The size of a point that is drawn alone, and the least one where there are many.
export const POINT_SIZE = 9;
const POINT_LEAST = 2.5;
// How much of the window the points of a layer may cover, if they all stood side by side.
const COVERED = 0.03;
// A pixel of a browser, in metres: 96 of them are an inch.
const PIXEL_METRES = 0.0254 / 96;

export const DEFAULTS = {
  colour: null,
  width: null,
  fillColour: null,
  fill: 15,
  symbol: "circle",
  size: POINT_SIZE,
  shrinks: true,
  isShown: true,
  scaleFrom: null,
  scaleTo: null,
  label: null,
  labelSize: 12,
  labelColour: null,
};

/** How wide the lines of a kind are by themselves. */
export const widthOf = (kind) => (/line/.test(kind) ? 2.5 : /polygon/.test(kind) ? 1 : 1.5);

/** A style with all its fields. */
export const wholeStyle = (style) => ({ ...DEFAULTS, ...style });

/** Puts a style on the group of a layer: colours and widths are properties that the style sheet uses. */
export function putOn(group, style, kind) {
  group.style.color = style.colour ?? "";
  setProperty(group, "--fill-colour", style.fillColour);
  setProperty(group, "--fill", style.fill / 100);
  setProperty(group, "--width", style.width === null ? null : `${style.width}px`);
  group.dataset.symbol = style.symbol;
  group.dataset.kind = kind;
}

function setProperty(element, name, value) {
  if (value === null) element.style.removeProperty(name);
  else element.style.setProperty(name, String(value));
}

/** How large points are where so many are in a window of some pixels: the more there are, the smaller. */
export function sizeOf(style, count, pixels) {
  if (!style.shrinks || count < 2) return style.size;
  const room = Math.sqrt((COVERED * pixels) / count);
  return Math.round(Math.min(style.size, Math.max(Math.min(POINT_LEAST, style.size), room)) * 2) / 2;
}

/** The denominator of the scale at which so many pixels stand for a metre. */
export const scaleOf = (pixelsForMetre) => 1 / (pixelsForMetre * PIXEL_METRES);

/** Whether a layer is shown at a scale. */
export function isAtScale({ scaleFrom, scaleTo }, scale) {
  return (scaleFrom === null || scale >= scaleFrom) && (scaleTo === null || scale <= scaleTo);
}

/** Symbols whose form is a path of its own; a circle and a square are the ends of a line without length. */
export const isForm = (symbol) => symbol in FORMS;

const turned = (count, radii) =>
  Array.from({ length: count }, (_, at) => {
    const angle = (2 * Math.PI * at) / count - Math.PI / 2;
    const radius = radii[at % radii.length];
    return [Math.cos(angle) * radius, Math.sin(angle) * radius];
  });

const FORMS = {
  triangle: [turned(3, [0.62])],
  diamond: [turned(4, [0.62])],
  star: [turned(10, [0.62, 0.26])],
  cross: [[[-0.5, 0], [0.5, 0]], [[0, -0.5], [0, 0.5]]],
};

/** The path of a symbol of a size at a place. */
export function formPath(symbol, [x, y], size) {
  const line = (points) => points.map(([dx, dy], at) => `${at ? "L" : "M"}${x + dx * size} ${y + dy * size}`).join("");
  return FORMS[symbol].map((points) => line(points) + (points.length > 2 ? "Z" : "")).join("");
}

/** A small picture of how a layer looks. */
export function swatch(style, kind, tint) {
  const svg = drawn("svg", { class: `swatch layer ${tint}`, viewBox: "0 0 20 14", width: 20, height: 14, "aria-hidden": "true" });
  putOn(svg, style, kind);
  const size = Math.min(style.size, 12);
  svg.style.setProperty("--size", `${size}px`);
  const shapes = /point/.test(kind) ? ["point"] : /line/.test(kind) ? ["linestring"] : ["polygon"];
  for (const shape of shapes) svg.append(drawn("path", { class: `sample ${shape}${shape === "point" && isForm(style.symbol) ? " form" : ""}`, d: swatchPath(shape, style, size) }));
  return svg;
}

function swatchPath(shape, style, size) {
  if (shape === "linestring") return "M2 11L8 4L12 9L18 3";
  if (shape === "polygon") return "M2 2H18V12H2Z";
  return isForm(style.symbol) ? formPath(style.symbol, [10, 7], size) : "M10 7h0";
}
