// Named states, and the comparison of two states with its choice and its film.
import { NAMES, Refusal, State, images, readState } from "../engine/index.js";
import { $, counted, el, say, tableRow } from "./dom.js";
import { FAMILIES } from "./examples.js";
import { Film } from "./film.js";
import { set } from "./moves.js";
import { packed } from "./packed.js";

/** Does what may be refused, and says so where it is. */
function tried(place, action) {
  try {
    say(place, action() ?? "");
  } catch (error) {
    say(place, error.message, true);
    if (!(error instanceof Refusal || error instanceof RangeError)) console.error(error);
  }
}

export class Compare {
  constructor(bench) {
    this.bench = bench;
    this.film = new Film();
    this.placesOf = new Map();
    $("save").addEventListener("submit", (event) => this.#save(event));
    $("compare").addEventListener("click", () => this.compare());
    $("second-state").addEventListener("change", () => this.#askText());
    $("first-state").addEventListener("change", () => this.#askText());
  }

  #save(event) {
    event.preventDefault();
    const name = $("name").value.trim();
    tried($("store-said"), () => {
      this.bench.save(name);
      this.placesOf.set(name, this.bench.places.map((place) => [...place]));
      $("name").value = "";
      return `Saved as ${name}.`;
    });
  }

  #return(name) {
    tried($("store-said"), () => {
      const held = this.bench.store.returnTo(name);
      const places = this.placesOf.get(name);
      if (places) this.bench.places = places.map((place) => [...place]);
      this.bench.act(set(packed(held)));
      return `Back at ${name}.`;
    });
  }

  #forget(name) {
    tried($("store-said"), () => {
      this.bench.forget(name);
      return `${name} is forgotten.`;
    });
  }

  #askText() {
    $("other-text").hidden = ![$("first-state").value, $("second-state").value].includes("text");
  }

  #held(name) {
    const state = this.bench.store.returnTo(name);
    const size = ` ${counted(state.n, "qubit")}, ${counted(state.edges().length, "edge")}`;
    const button = (text, onclick) => {
      const given = { class: "small", type: "button", "aria-label": `${text} ${name}` };
      return el("button", { ...given, onclick }, text);
    };
    const buttons = [button("Return to", () => this.#return(name)), button("Forget", () => this.#forget(name))];
    return el("li", {}, el("span", { class: "what" }, el("strong", {}, name), size), ...buttons);
  }

  draw() {
    const names = this.bench.store.names();
    $("held").replaceChildren(...names.map((name) => this.#held(name)));
    this.#fill($("first-state"), names, "present");
    this.#fill($("second-state"), names, names[0] ? `held ${names[0]}` : "family ring");
    this.#askText();
  }

  /** Fills a menu of states; what was chosen stays where it is still there. */
  #fill(menu, names, usual) {
    const { n } = this.bench.state;
    const held = names.map((name) => [`held ${name}`, name]);
    const families = Object.keys(FAMILIES).map((name) => [`family ${name}`, `${name} of ${n}`]);
    const values = [["present", "the present state"], ...held, ...families, ["text", "a text…"]];
    const chosen = values.some(([value]) => value === menu.value) ? menu.value : usual;
    menu.replaceChildren(...values.map(([value, text]) => el("option", { value, selected: value === chosen }, text)));
  }

  #chosen(value) {
    const { state, store } = this.bench;
    const name = value.slice(value.indexOf(" ") + 1);
    if (value === "text") return readState(`${$("other-text").value.trim()}\n`);
    if (value.startsWith("held ")) return store.returnTo(name);
    return value === "present" ? state : State.graph(state.n, FAMILIES[name](state.n));
  }

  /** Compares the two chosen states. */
  compare() {
    $("found").hidden = true;
    this.film.pause();
    tried($("compare-said"), () => {
      const [first, second] = ["first-state", "second-state"].map((id) => this.#chosen($(id).value));
      const found = first.compare(second);
      if (!found) return "Not equivalent (13): no choice of local Cliffords carries the first state onto the second.";
      $("found").hidden = false;
      this.#show(first, found);
      const list = found.complementations;
      return `Equivalent, by ${counted(list.length, "complementation")}${list.length ? ` at ${list.join(", ")}` : ""}.`;
    });
  }

  #show(first, { choice, complementations }) {
    const rows = choice.map((code, q) => tableRow([q, code, NAMES[code], ...images(code)]));
    $("choice").tBodies[0].replaceChildren(...rows);
    const graph = new State(first.reduced().neighbours, Array(first.n).fill(0));
    this.film.begin(graph, complementations, this.bench.places);
  }
}
