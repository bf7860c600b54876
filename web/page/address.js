// The session in the page's address: kept up to date, opened, and a new entry in the browser's history for a new session.
import { $, say } from "./dom.js";
import { opened } from "./link.js";

const LATER = 200;

export class Address {
  #timer = 0;

  constructor(bench) {
    this.bench = bench;
    window.addEventListener("hashchange", () => this.open(location.hash));
  }

  /** Writes the session into the address, a little after the last change. */
  keep() {
    clearTimeout(this.#timer);
    this.#timer = setTimeout(() => history.replaceState(null, "", `#${this.bench.link()}`), LATER);
  }

  /** The browser's Back leads from here to the session before. */
  begin() {
    clearTimeout(this.#timer);
    history.pushState(null, "", `#${this.bench.link()}`);
  }

  /** Opens the session of an address, where it has one; says what is wrong with it. */
  open(hash) {
    if (!hash.includes("start=")) return;
    try {
      this.bench.open(opened(hash));
    } catch (error) {
      say($("status"), `This link cannot be opened: ${error.message}`, true);
    }
  }
}
