// The way from one graph to another, a complementation at a time.
import { State } from "../engine/index.js";
import { $, say } from "./dom.js";
import { GraphView } from "./graph.js";

const PACE = 1300;

const named = (edges) => edges.map(([a, b]) => `${a}–${b}`).join(", ");

/** The edges that are not among others. */
function without(edges, others) {
  const held = new Set(others.map(String));
  return edges.filter((edge) => !held.has(String(edge)));
}

/** The graphs on the way: each complemented at the next vertex of the list. */
export function frames(graph, list) {
  const made = [{ state: graph, vertex: null, fresh: [], gone: [] }];
  for (const vertex of list) {
    const before = made[made.length - 1].state;
    const after = before.copy();
    after.complement(vertex);
    const state = new State(after.neighbours, Array(after.n).fill(0));
    const [now, then] = [state.edges(), before.edges()];
    made.push({ state, vertex, fresh: without(now, then), gone: without(then, now) });
  }
  return made;
}

/** What a frame shows. */
function told({ vertex, fresh, gone }, at, last) {
  const done = at === last ? " This is the reduced graph of the second state." : "";
  if (vertex === null) return `The reduced graph of the first state.${done}`;
  const changes = [fresh.length ? `${named(fresh)} new` : "", gone.length ? `${named(gone)} gone` : ""].filter(Boolean);
  return `${at} of ${last}: complement at ${vertex}; ${changes.join(", ") || "no edge changes"}.${done}`;
}

export class Film {
  #timer = 0;

  constructor() {
    this.view = new GraphView($("film"));
    this.frames = [];
    $("film-back").addEventListener("click", () => (this.pause(), this.show(this.at - 1)));
    $("film-next").addEventListener("click", () => (this.pause(), this.show(this.at + 1)));
    $("film-at").addEventListener("input", (event) => (this.pause(), this.show(Number(event.target.value))));
    $("film-play").addEventListener("click", () => (this.#timer ? this.pause() : this.play()));
  }

  /** Begins with the first graph; plays where motion is welcome. */
  begin(graph, list, places) {
    this.pause();
    Object.assign(this, { frames: frames(graph, list), places });
    $("film-at").max = list.length;
    this.show(0);
    if (!matchMedia("(prefers-reduced-motion: reduce)").matches) this.play();
  }

  show(at) {
    this.at = Math.max(0, Math.min(this.frames.length - 1, at));
    const { state, vertex, fresh, gone } = this.frames[this.at];
    this.view.draw({ state, places: this.places, centre: vertex, fresh, gone });
    $("film-at").value = this.at;
    say($("frame"), told(this.frames[this.at], this.at, this.frames.length - 1));
  }

  play() {
    if (this.frames.length < 2) return;
    if (this.at === this.frames.length - 1) this.show(0);
    $("film-play").textContent = "Pause";
    this.#timer = setInterval(() => (this.at < this.frames.length - 1 ? this.show(this.at + 1) : this.pause()), PACE);
  }

  pause() {
    clearInterval(this.#timer);
    this.#timer = 0;
    $("film-play").textContent = "Play";
  }
}
