// The console: lines with their answers, those that the mouse made among them.

import { byId, counted, element } from "./dom.js";

const ENTRIES_MAX = 200;
const ROWS_MAX = 100;
// The line that begins a group, and how many members one has.
const HEAD = /^[ \t]*together[ \t]+0*([1-9][0-9]{0,4})[ \t]*$/;
const GROUP_MAX = 65_535;

export class Log {
  /**
   * `onLine` is given each line, and what `now` told when it was begun.
   *
   * A group is one line, with carriage returns between its own: it is given when its last member was typed.
   */
  constructor(onLine, now) {
    this.group = null;
    this.lines = [];
    this.at = 0;
    let begun = null;
    const input = byId("line-text");
    input.oninput = () => (begun = input.value ? (begun ?? now()) : null);
    byId("line").onsubmit = (event) => {
      event.preventDefault();
      const line = input.value.trim();
      if (!line) return;
      this.lines.push(line);
      this.at = this.lines.length;
      input.value = "";
      this.#take(line, begun ?? now(), onLine);
      begun = null;
    };
    input.onkeydown = (event) => {
      if (event.key === "Escape") this.#leave();
      const step = { ArrowUp: -1, ArrowDown: 1 }[event.key];
      if (!step) return;
      event.preventDefault();
      this.at = Math.min(this.lines.length, Math.max(0, this.at + step));
      input.value = this.lines[this.at] ?? "";
      begun = now();
    };
  }

  #take(line, begun, onLine) {
    const size = this.group ? 0 : Number(HEAD.exec(line)?.[1] ?? 0);
    if (0 < size && size <= GROUP_MAX) this.group = { lines: [], size, head: line, begun };
    else if (this.group) this.group.lines.push(line);
    else return onLine(line, begun);
    const { lines, head, ...group } = this.group;
    if (lines.length < group.size) {
      this.add(line, `${lines.length + 1} of ${group.size} comes next; Escape leaves the group`);
      return;
    }
    this.group = null;
    onLine([head, ...lines].join("\r"), group.begun);
  }

  #leave() {
    if (this.group) this.add(this.group.head, "The group is left: nothing of it was done.");
    this.group = null;
  }

  /** Whether a line, or a group, is typed that was not sent. */
  get hasTyped() {
    return Boolean(this.group || byId("line-text").value.trim());
  }

  /** Writes a line with its answer. */
  add(line, text, kind = "", who = "") {
    const entry = element("li", { className: kind });
    if (who) entry.append(element("span", { className: "who" }, `${who}: `));
    entry.append(element("code", {}, line), element("pre", {}, text));
    const log = byId("log");
    log.append(entry);
    while (log.children.length > ENTRIES_MAX) log.firstChild.remove();
    log.scrollTop = log.scrollHeight;
  }

  addAnswer(line, answer) {
    if (answer.refused) this.add(line, `refused ${answer.refused.number} ${answer.refused.name}`, "refused");
    else if (answer.undone) this.add(line, `not done: ${answer.undone.words}`, "refused");
    else if (answer.rows) this.add(line, rowsText(answer));
    else this.add(line, [answer.text ?? answer.answer, ...(answer.changed ? [`changed: ${answer.changed}`] : [])].join("\n"));
  }
}

function rowsText({ rows, count }) {
  const more = count > ROWS_MAX ? [`.. and ${counted(count - ROWS_MAX)} more`] : [];
  return [`rows ${count}`, ...rows.slice(0, ROWS_MAX), ...more].join("\n");
}
