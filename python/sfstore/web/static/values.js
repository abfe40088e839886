// The fields in which values are typed or chosen, by the types of columns. What a field shows is kept as its `shown`.

import { element, onChosen } from "./dom.js";

export const NO_VALUE = "no value";
// Browsers let years of six digits be typed.
const BOUNDS = {
  date: { type: "date", min: "0001-01-01", max: "9999-12-31" },
  datetime: { type: "datetime-local", min: "0001-01-01T00:00", max: "9999-12-31T23:59:59.999", step: "0.001" },
};
const INPUT_MODES = { int: "numeric", decimal: "decimal" };
const LINES_MAX = 8;
// From more values nobody chooses in a list: they are typed, and the rule refuses others.
const CHOICES_MAX = 200;
const LARGEST = 2n ** 63n - 1n;
const DIGITS_MAX = 18;
const NUMBERS = {
  int: { form: /^([+-]?)0*([0-9]{1,19})$/, words: `whole numbers, from ${-LARGEST - 1n} to ${LARGEST}` },
  decimal: { form: /^([+-]?)0*([0-9]{1,19})(?:\.([0-9]*?)0*)?$/, words: `numbers, such as 812.50, with ${DIGITS_MAX} digits behind the point at most` },
};
const CONTROL = /[\x00-\x1f\x7f]/;
const ESCAPES = { "\n": "\\n", "\t": "\\t", "\r": "\\r", "\\": "\\\\", "'": "''" };

/** What stands beside a field. Times are typed in UTC, whatever the zone of the browser. */
export const labelOf = (name, type) => `${name} (${type === "datetime" ? "datetime, UTC" : type})`;

/** The same, short: most columns are of texts. */
export const shortLabelOf = (name, type) => (type === "text" ? name : labelOf(name, type));

/**
 * A field for values of a column, which calls `done` once something was typed or chosen. Where a rule allows some values alone, they
 * are chosen from; a range that a rule demands is told of by `hint`.
 *
 * Numbers are typed as texts: a browser's number has 53 bits, and what it takes for none would be read as no value.
 */
export function fieldOf({ name, type, allowed }, done) {
  const known = { id: `value-${name}`, autocomplete: "off", kind: type, shown: "", hint: "" };
  const choices = type === "bool" ? ["true", "false"] : canChoose(type, allowed) ? allowed : null;
  if (choices) {
    const list = element("select", known, ...["", ...choices].map(option));
    onChosen(list, () => isTyped(list) && done());
    return list;
  }
  if (type === "text") return textField(known, done);
  if (!(type in BOUNDS)) {
    return element("input", { ...known, spellcheck: false, inputMode: INPUT_MODES[type], onchange: done });
  }
  const input = element("input", { ...known, ...BOUNDS[type] });
  // A browser tells a change with each digit of a day: it is done once the field is left.
  input.onblur = () => isTyped(input) && done();
  input.addEventListener("keydown", (event) => event.key === "Enter" && input.onblur());
  return input;
}

/** Whether values are chosen from a list: a time is typed in its own field, and a text without letters looks like no value there. */
const canChoose = (type, allowed) => Boolean(allowed) && allowed.length <= CHOICES_MAX && allowed.every(Boolean) && type !== "datetime";

const option = (value) => element("option", { value }, value || NO_VALUE);

/** A field for a text, of as many lines as the text has. Enter is the end of a text of one line, and with Shift begins another. */
function textField(known, done) {
  const tell = () => isTyped(area) && done();
  const area = element("textarea", { ...known, rows: 1, spellcheck: false, lineEnd: "\n", onchange: tell });
  area.oninput = () => fit(area);
  area.addEventListener("keydown", (event) => {
    if (event.key !== "Enter" || event.shiftKey || area.value.includes("\n")) return;
    event.preventDefault();
    tell();
  });
  return area;
}

function fit(area) {
  area.rows = Math.min(area.value.split("\n").length, LINES_MAX);
  // A line that is too long for the field goes on in the next one. A browser may round one height up and the other one down.
  while (area.rows < LINES_MAX && area.scrollHeight > area.clientHeight + 1) area.rows += 1;
}

/** What stands in a field, as the store writes it; empty where there is no value. */
export function valueIn(input) {
  if (input.lineEnd) return input.value.replaceAll("\n", input.lineEnd);
  return input.kind === "datetime" && input.value ? inUtc(input.value) : input.value;
}

/** Whether something else stands in a field than the value that is there. */
export const isTyped = (input) => !input.readOnly && (valueIn(input) !== input.shown || input.validity.badInput);

/** Why what stands in a field is no value of its column, in words; empty where it may be one. */
export function faultIn(input, name) {
  if (input.validity.badInput) return `The ${input.kind} in ${name} is not whole`;
  const word = wordIn(input, input.kind);
  const taken = NUMBERS[input.kind];
  return word === "" || !taken || isNumber(word, taken.form) ? "" : `${name} takes ${taken.words}`;
}

/** Whether a word is a number of a form: all of its digits are a whole number of 64 bits. */
function isNumber(word, form) {
  const [, sign, whole, fraction = ""] = form.exec(word) ?? [];
  if (whole === undefined || word.endsWith(".") || fraction.length > DIGITS_MAX) return false;
  return BigInt(whole + fraction) <= LARGEST + (sign === "-" ? 1n : 0n);
}

/** Tells beside a field which range a rule demands; nothing where none does. */
export function hint(input, range) {
  input.hint = range ? `The rule allows ${range}` : "";
  if (!input.readOnly) input.title = input.hint;
}

/** Shows a value in its field. */
export function show(input, value) {
  // What is typed of a day in part goes by another value alone.
  if (input.validity.badInput) input.value = input.max;
  // No list shows another value than there is.
  if (isList(input) && ![...input.options].some((each) => each.value === value)) input.append(option(value));
  input.value = input.kind === "datetime" ? value.replace("Z", "") : value;
  input.shown = value;
  if (input.lineEnd) keepLineEnds(input, value);
}

/** Has a field give the ends of lines back as they are in its text: a browser makes line feeds of all. */
function keepLineEnds(area, text) {
  const ends = new Set(text.match(/\r\n|\r|\n/g));
  [area.lineEnd = "\n"] = ends;
  area.readOnly = ends.size > 1;
  area.title = area.readOnly ? "Its lines end in several ways, which a browser does not keep: a line of the console sets it." : area.hint;
  fit(area);
}

/** How a line has what stands in a field for values of a type; empty where the value is to be cleared: no text of a list is empty. */
export function wordIn(input, type) {
  const value = valueIn(input);
  return type === "text" && !(isList(input) && value === "") ? quoted(value) : value.trim();
}

const isList = (input) => input.tagName === "SELECT";

/** A text as the store reads it: in quotes, or with escapes where it has a control character. */
function quoted(text) {
  if (!CONTROL.test(text)) return `'${text.replaceAll("'", "''")}'`;
  const code = (letter) => `\\x${letter.charCodeAt(0).toString(16).padStart(2, "0")}`;
  return `E'${text.replace(/[\x00-\x1f\x7f\\']/g, (letter) => ESCAPES[letter] ?? code(letter))}'`;
}

/** A time as the store writes it: the browser leaves out what is 0. */
function inUtc(typed) {
  const [seconds, fraction = ""] = typed.split(".");
  const whole = seconds.length === "0001-01-01T00:00".length ? `${seconds}:00` : seconds;
  return `${whole}.${fraction.padEnd(3, "0")}Z`;
}
