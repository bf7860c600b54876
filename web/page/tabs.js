// The panels, one in sight at a time; arrow keys go from tab to tab.
import { $ } from "./dom.js";

export class Tabs {
  constructor(shown) {
    this.tabs = [...document.querySelectorAll("[role=tab]")];
    this.shown = shown;
    for (const tab of this.tabs) {
      tab.addEventListener("click", () => this.choose(tab.id));
      tab.addEventListener("keydown", (event) => this.#key(event));
    }
    this.choose(this.tabs[0].id);
  }

  #key(event) {
    const by = { ArrowRight: 1, ArrowLeft: -1 }[event.key];
    if (!by) return;
    const next = this.tabs[(this.tabs.indexOf(event.target) + by + this.tabs.length) % this.tabs.length];
    this.choose(next.id);
    next.focus();
  }

  choose(id) {
    this.chosen = id;
    for (const tab of this.tabs) {
      const on = tab.id === id;
      tab.setAttribute("aria-selected", String(on));
      tab.tabIndex = on ? 0 : -1;
      $(tab.getAttribute("aria-controls")).hidden = !on;
    }
    this.shown(id);
  }
}
