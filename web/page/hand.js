// What a click or a key does: the tool in use, and the vertex that a pair begins with.
import { code, fairBit } from "../engine/index.js";
import { $, say } from "./dom.js";
import { edgesOf } from "./graph.js";
import * as moves from "./moves.js";
import { circle, columnsFor, grid, line, springs } from "./places.js";
import { Tools } from "./tools.js";

export class Hand {
  /** The first vertex of a pair that is half made, or null. */
  from = null;

  /** `changed` is called where the hand, and not the state, has changed. */
  constructor(bench, view, changed) {
    Object.assign(this, { bench, view, changed });
    this.tools = new Tools({
      tools: $("tools"),
      options: $("options"),
      hint: $("hint"),
      changed: () => this.leaveOff(),
      arrange: (layout) => this.arrange(layout),
      addOne: () => bench.act(moves.add(this.tools.added)),
    });
  }

  /** Whether pulling from a vertex draws a pair. */
  get pulls() {
    return this.tools.tool === "join";
  }

  /** A click on a vertex, or on a free place. */
  click(vertex, point) {
    if (vertex !== null) this.use(vertex);
    else if (this.tools.tool === "add") this.#addAt(point);
    else if (!this.leaveOff()) this.bench.setSide([]);
  }

  #addAt(point) {
    const { bench, view } = this;
    const { n } = bench.state;
    bench.places.length = n;
    bench.places.push(view.place(point, n).map((part) => Math.max(0, Math.min(1, part))));
    bench.act(moves.add(this.tools.added), n);
  }

  /** Uses the tool at a vertex. */
  use(vertex) {
    const { tool, gate, pauli, outcome, code: state } = this.tools;
    const { bench } = this;
    const lot = outcome === "lot";
    const measured = lot ? moves.observe(pauli, vertex, fairBit()) : moves.measure(pauli, vertex, Number(outcome));
    const does = {
      select: () => bench.toggleSide(vertex),
      add: () => bench.toggleSide(vertex),
      gate: () => bench.act(moves.gate(vertex, code(gate)), vertex),
      join: () => this.join(this.from, vertex),
      measure: () => bench.act(measured, vertex),
      complement: () => bench.act(moves.complement(vertex), vertex),
      renew: () => bench.act(moves.renew(vertex, state), vertex),
    };
    does[tool]();
  }

  /** The second vertex of a pair joins it to the first; a first one is kept. */
  join(a, b) {
    const { pair } = this.tools;
    this.from = a === null ? b : null;
    if (a === null) say($("status"), `${pair} from ${b}: choose the other vertex.`);
    if (a !== null && a !== b) this.bench.act(moves.pair(pair, a, b), b);
    else this.changed();
  }

  /** Leaves off a half-made pair; answers whether there was one. */
  leaveOff() {
    const held = this.from !== null;
    this.from = null;
    this.changed();
    return held;
  }

  /** Measures a row of the right form, by lot; answers whether it did. */
  measureRow(row) {
    const letters = [...row.replace(/^[+-]/, "")];
    const factors = letters.map((letter, q) => `${letter}${q}`).filter((factor) => !factor.startsWith("I"));
    if (letters.length !== this.bench.state.n || !/^[IXYZ]*[XYZ][IXYZ]*$/.test(letters.join(""))) return false;
    this.bench.act(moves.product(factors.join("*"), fairBit()));
    return true;
  }

  arrange(layout) {
    const { bench, view } = this;
    const { n } = bench.state;
    const aspect = view.size[0] / view.size[1];
    const made = {
      circle: () => circle(n, aspect),
      grid: () => grid(n, columnsFor(n, aspect)),
      line: () => line(n),
      springs: () => springs(edgesOf(bench.state), bench.places.slice(0, n)),
    };
    bench.arrange(made[layout]());
  }
}
