// The tools and their options.
import { NAMES, SYMBOLS } from "../engine/index.js";
import { el } from "./dom.js";
import { PAIRS } from "./pairs.js";
import { stateName } from "./words.js";

const COMMON = ["H", "S", "S_DAG", "X", "Y", "Z", "SQRT_X", "SQRT_X_DAG", "SQRT_Y", "SQRT_Y_DAG"];
const STATES = [8, 10, 0, 2, 4, 6];

/** name: [what it is called, key, what to do] */
const TOOLS = {
  select: ["Select", "v", "Drag a vertex, click it to put it on the side, or draw a loop round a side."],
  add: ["Add", "a", "Click a free place to add a qubit there."],
  gate: ["Gate", "g", "Click a vertex to apply the gate."],
  join: ["Join", "j", "Click two vertices, or pull a line from one to the other."],
  measure: ["Measure", "m", "Click a vertex to measure its photon, which is gone afterwards."],
  complement: ["Complement", "l", "Click a vertex: edges between its neighbours flip. The state stays."],
  renew: ["Renew", "r", "Click a used vertex to put a new photon there."],
};

/** One choice of several, as chips: each a value, its text, and perhaps another word for it. */
function chips(name, legend, values, chosen, choose) {
  const chip = ([value, text, spoken = text]) => {
    const given = { type: "radio", name, value, checked: value === chosen, "aria-label": spoken };
    return el("label", { class: "chip" }, el("input", { ...given, onchange: () => choose(value) }), el("span", {}, text));
  };
  return el("fieldset", {}, el("legend", {}, legend), ...values.map(chip));
}

/** The rest of a long list of choices. */
function menu(label, names, chosen, choose) {
  const option = (name) => el("option", { value: name, selected: name === chosen }, name);
  const onchange = (event) => event.target.value && choose(event.target.value);
  return el("select", { "aria-label": label, onchange }, el("option", { value: "" }, "others…"), ...names.map(option));
}

export class Tools {
  tool = "select";
  gate = "H";
  pair = "CZ";
  pauli = "Z";
  outcome = "lot";
  code = 8;
  added = 8;

  constructor({ tools, options, hint, changed, addOne, arrange }) {
    Object.assign(this, { options, hint, changed, addOne, arrange });
    this.buttons = Object.entries(TOOLS).map(([name, [text, key]]) => this.#button(name, text, key));
    tools.append(...this.buttons);
    this.choose("select");
  }

  #button(name, text, key) {
    const does = { onclick: () => this.choose(name), onkeydown: (event) => this.#rove(event) };
    const mark = el("kbd", { "aria-hidden": "true" }, key.toUpperCase());
    return el("button", { role: "radio", type: "button", "data-tool": name, ...does }, text, " ", mark);
  }

  /** Arrow keys go from tool to tool, as in any group of radio buttons. */
  #rove(event) {
    const by = { ArrowRight: 1, ArrowDown: 1, ArrowLeft: -1, ArrowUp: -1 }[event.key];
    if (!by) return;
    const at = this.buttons.indexOf(event.target);
    const next = this.buttons[(at + by + this.buttons.length) % this.buttons.length];
    this.choose(next.dataset.tool);
    next.focus();
    event.preventDefault();
  }

  choose(name) {
    this.tool = name;
    for (const button of this.buttons) {
      const on = button.dataset.tool === name;
      button.setAttribute("aria-checked", String(on));
      button.tabIndex = on ? 0 : -1;
    }
    this.hint.textContent = TOOLS[name][2];
    this.options.replaceChildren(...(this[`${name}Options`]?.() ?? []));
    this.changed();
  }

  /** Chooses by a key; answers whether it is one of a tool. */
  byKey(key) {
    const found = Object.entries(TOOLS).find(([, [, own]]) => own === key);
    if (found) this.choose(found[0]);
    return found !== undefined;
  }

  #set(field) {
    return (value) => {
      this[field] = value;
      this.changed();
    };
  }

  selectOptions() {
    const layouts = Object.entries({ circle: "Circle", grid: "Grid", line: "Line", springs: "By edges" });
    const button = ([name, text]) => el("button", { type: "button", "data-layout": name, onclick: () => this.arrange(name) }, text);
    return [el("span", { class: "soft" }, "Arrange"), ...layouts.map(button)];
  }

  /** Gates as chips and the others in a menu; one of all these is chosen. */
  #gates(field, legend, common, others) {
    const set = this.#set(field);
    const list = menu("Other gates", others, this[field], (name) => {
      for (const input of this.options.querySelectorAll("input")) input.checked = false;
      set(name);
    });
    const chip = (name) => {
      list.value = "";
      set(name);
    };
    return [chips(field, legend, common, this[field], chip), list];
  }

  gateOptions() {
    const others = NAMES.filter((name) => !COMMON.includes(name) && name !== "I");
    return this.#gates("gate", "Gate", COMMON.map((name) => [name, SYMBOLS[NAMES.indexOf(name)], name]), others);
  }

  joinOptions() {
    const names = Object.keys(PAIRS);
    return this.#gates("pair", "By", names.slice(0, 3).map((name) => [name, name]), names.slice(3));
  }

  measureOptions() {
    const outcomes = [["lot", "by lot"], ["0", "0"], ["1", "1"]];
    return [
      chips("pauli", "Pauli", ["X", "Y", "Z"].map((pauli) => [pauli, pauli]), this.pauli, this.#set("pauli")),
      chips("outcome", "Outcome", outcomes, this.outcome, this.#set("outcome")),
    ];
  }

  /** The six states of a photon. */
  #states(field) {
    const values = STATES.map((code) => [String(code), stateName(code)]);
    return chips(field, "In", values, String(this[field]), (value) => this.#set(field)(Number(value)));
  }

  addOptions() {
    const button = el("button", { type: "button", id: "add-one", onclick: () => this.addOne() }, "Add a qubit");
    return [this.#states("added"), button];
  }

  renewOptions() {
    return [this.#states("code")];
  }
}
