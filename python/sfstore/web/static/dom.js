// Small helpers over the document. Whatever comes from the store becomes text, and never markup.

export const byId = (id) => document.getElementById(id);

/** A new element with properties, classes and children; texts stand as texts. */
export function element(name, properties = {}, ...children) {
  const made = document.createElement(name);
  Object.assign(made, properties);
  made.append(...children);
  return made;
}

/** A new element of SVG with attributes. */
export function drawn(name, attributes = {}) {
  const made = document.createElementNS("http://www.w3.org/2000/svg", name);
  for (const [key, value] of Object.entries(attributes)) made.setAttribute(key, value);
  return made;
}

// Made once: to make one takes longer than to write a thousand numbers.
const WHOLE = new Intl.NumberFormat("en");

/** A number for people, with its thousands apart. */
export const counted = (number) => WHOLE.format(number);

/** A decimal that is written as a text, with its thousands apart, and all of its digits. */
export const grouped = (text) => text.replace(/^[0-9]+/, (whole) => counted(BigInt(whole)));

// Keys that go through the values of a list that is closed; a letter does too.
const PASSING = /^(Arrow.*|Home|End|Page.*|.)$/u;

/**
 * Has `done` called once a value of a list is chosen: at once by the mouse, or from the list when it is open.
 *
 * Keys on a closed list pass values that nobody wants: the one where they end is chosen by Enter, or when the list is left.
 */
export function onChosen(list, done) {
  let isPassing = false;
  let isWaiting = false;
  const settle = () => {
    if (isWaiting) done();
    isWaiting = false;
  };
  list.addEventListener("pointerdown", () => (isPassing = false));
  list.addEventListener("keydown", (event) => {
    // With Alt, and by the space bar, the list is opened.
    isPassing = PASSING.test(event.key) && event.key !== " " && !event.altKey;
    if (event.key === "Enter") settle();
  });
  list.addEventListener("change", () => {
    isWaiting = true;
    if (!isPassing) settle();
  });
  list.addEventListener("blur", settle);
}

/** Has a layer stand under another name in a list of layers, so that it stays chosen. */
export function renameIn(list, before, after) {
  for (const option of list.options) if (option.value === before) option.value = after;
}

let asked = Promise.resolve();

/** Asks whether something is to be done, once what was asked before is answered. The deed is what the button says. */
export function sure(words, deed) {
  asked = asked.then(() => ask(words, deed));
  return asked;
}

function ask(words, deed) {
  const dialog = byId("sure");
  byId("sure-words").textContent = words;
  byId("sure-yes").textContent = deed;
  byId("sure-yes").onclick = () => dialog.close("yes");
  byId("sure-no").onclick = () => dialog.close();
  dialog.returnValue = "";
  dialog.showModal();
  return new Promise((done) => (dialog.onclose = () => done(dialog.returnValue === "yes")));
}
