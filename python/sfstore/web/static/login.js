// Who this page is: somebody who comes by a link, or who has a key in this browser.
//
// Keys are kept for this address alone, its port included, and are good as long as the server runs.

import { byId, element } from "./dom.js";
import { call, CallFailed, speakFor } from "./server.js";

// The name of this tab; the keys of all names of this browser.
const NAME = "sfstore-name";
const KEYS = "sfstore-keys";

const HOW = "Open a link that sfstore-web has printed. Who runs it types `link` for a new person, `link NAME` for a known one.";

export class Login {
  constructor() {
    const told = new URLSearchParams(location.hash.slice(1));
    this.link = told.get("link");
    byId("login-name").value = told.get("name") ?? "";
    byId("login-name").readOnly = told.has("name");
    // A link that is opened in this tab changes what stands behind the # alone.
    addEventListener("hashchange", () => location.reload());
  }

  /** Waits until somebody is in, and tells who. */
  async enter() {
    const names = Object.keys(keys());
    const name = sessionStorage.getItem(NAME) ?? (names.length === 1 ? names[0] : null);
    const known = this.link || !name ? null : await this.#known(name);
    return known ?? (await new Promise((done) => this.#ask(done)));
  }

  /** The person of a name, if this browser has a key that is still good. */
  async #known(name) {
    const before = speakFor(keys()[name] ?? "");
    try {
      const person = await call("me", {});
      sessionStorage.setItem(NAME, person.name);
      return person;
    } catch (fault) {
      speakFor(before);
      if (!(fault instanceof CallFailed)) throw fault;
      const isEnded = fault.status === 403;
      if (isEnded) keep({ ...keys(), [name]: undefined });
      byId("login-error").textContent = isEnded ? `${name} is logged in no more.` : fault.message;
      return null;
    }
  }

  /** Asks who it is that comes by the link, or which name of this browser is meant. */
  #ask(done) {
    byId("login-how").textContent = this.link ? "" : HOW;
    byId("login-form").hidden = !this.link;
    byId("login-names").replaceChildren(...Object.keys(keys()).map((name) => this.#choice(name, done)));
    byId("login-form").onsubmit = (event) => {
      event.preventDefault();
      this.#comeIn(byId("login-name").value, done);
    };
    byId("login-leave").onclick = () => byId("login").close();
    byId("login").oncancel = (event) => byId("login-leave").hidden && event.preventDefault();
    byId("login").showModal();
  }

  #choice(name, done) {
    const button = element("button", { type: "button" }, `Go on as ${name}`);
    button.onclick = async () => {
      const person = await this.#known(name);
      if (!person) return button.remove();
      this.#close();
      done(person);
    };
    return element("li", {}, button);
  }

  async #comeIn(name, done) {
    try {
      const person = await call("login", { link: this.link, name });
      keep({ ...keys(), [person.name]: person.key });
      sessionStorage.setItem(NAME, person.name);
      speakFor(person.key);
      this.#close();
      done(person);
    } catch (fault) {
      byId("login-error").textContent = fault.message;
    }
  }

  #close() {
    byId("login").close();
    // The link is good no more: nobody needs to see it.
    history.replaceState(null, "", location.pathname);
  }

  /** Lets another name of this browser be chosen, or none. */
  change() {
    this.link = null;
    byId("login-error").textContent = "";
    byId("login-leave").hidden = false;
    this.#ask(() => location.reload());
  }
}

function keys() {
  try {
    return JSON.parse(localStorage.getItem(KEYS)) ?? {};
  } catch {
    return {};
  }
}

function keep(known) {
  localStorage.setItem(KEYS, JSON.stringify(known));
}
