// What is shown: the graph, the panel in sight, and what the last move answered. All is drawn at the next frame, once.
import { drawAmplitudes } from "./amplitudes.js";
import { Bubble } from "./bubble.js";
import { $, counted, el, say } from "./dom.js";
import { edgesOf } from "./graph.js";
import { drawCut, drawExpectation } from "./questions.js";
import { drawRecord } from "./record.js";

/** The vertex at which a move happens, or null. */
function vertexOf(move, n) {
  const vertex = move.kind === "job" ? move.step[1] : (move.qubit ?? move.b ?? null);
  return vertex !== null && vertex < n ? vertex : null;
}

export class Display {
  #due = false;
  #panelDue = true;
  #fresh = null;
  #drawn = null;
  #pending = null;

  /** `panels` has for each tab what draws it. */
  constructor(bench, view, panels) {
    Object.assign(this, { bench, view, from: null, chosen: "tab-state" });
    this.panels = { "tab-state": () => this.#drawState(), ...panels };
    this.bubble = new Bubble($("bubble"), $("status"));
  }

  /** Takes note of a change. */
  changed({ move, answer, vertex, opened, went, moved, arranged }) {
    this.#note(opened);
    this.bubble.hide();
    if (answer) this.#pending = { move, answer, at: vertex ?? vertexOf(move, this.bench.state.n) };
    else if (went) say($("status"), `${this.bench.session.at} of ${this.bench.session.moves.length} steps done`);
    else if (opened) say($("status"), "");
    this.refresh(moved === undefined && !arranged);
  }

  /** Marks the edges that the state before did not have. */
  #note(opened) {
    const [before, { state }] = [this.#drawn, this.bench];
    this.#drawn = state;
    if (before === state) return;
    const held = before && !opened ? new Set(edgesOf(before).map(String)) : null;
    this.#fresh = edgesOf(state).filter((edge) => held && !held.has(String(edge)));
  }

  /** Draws at the next frame: the graph, and the panel too where the state may have changed. */
  refresh(panel = true) {
    this.#panelDue ||= panel;
    if (this.#due) return;
    this.#due = true;
    requestAnimationFrame(() => {
      this.#due = false;
      this.#draw();
    });
  }

  #draw() {
    const { bench, view, from } = this;
    bench.aspect = view.size[0] / view.size[1];
    view.draw({ state: bench.state, places: bench.places, side: bench.side, from, fresh: this.#fresh });
    this.#fresh = null;
    if (this.#panelDue) this.panels[this.chosen]();
    this.#panelDue = false;
    $("undo").disabled = !bench.session.canUndo;
    $("redo").disabled = !bench.session.canRedo;
    this.#tell();
  }

  #drawState() {
    const { bench } = this;
    drawCut(bench, document.activeElement === $("side"));
    drawExpectation(bench);
    drawRecord(bench.state);
    drawAmplitudes(bench.state);
  }

  /** Tells what the last move answered, and offers to bring back what it dropped. */
  #tell() {
    if (!this.#pending) return;
    const { move, answer, at } = this.#pending;
    this.#pending = null;
    this.bubble.tell({ move, answer }, at === null ? null : this.view.points[at], this.view.radius);
    const { dropped } = this.bench.session;
    if (dropped && !answer.refusal) this.#offer(dropped.moves.length);
  }

  #offer(count) {
    const onclick = () => this.bench.bringBack();
    const button = el("button", { class: "small", type: "button", onclick }, "Bring back");
    $("status").append(` (${counted(count, "step")} ahead dropped.) `, button);
  }
}
