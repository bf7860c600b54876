// What the page holds: a session, the places of the vertices, the side of a cut, named states. It tells its listeners of
// every change.
import { Store } from "../engine/index.js";
import { linkOf, stateLink } from "./link.js";
import { free, usual } from "./places.js";
import { Session } from "./session.js";

export class Bench {
  #listeners = [];

  /** `aspect` is the width over the height of the area that it is drawn in. */
  constructor(start, places, aspect) {
    this.aspect = aspect;
    this.begin({ start, places });
  }

  get state() {
    return this.session.state;
  }

  /** Calls a function at every change, with what happened. */
  listen(listener) {
    this.#listeners.push(listener);
  }

  #tell(happened = {}) {
    this.#keepFitting();
    for (const listener of this.#listeners) listener(happened);
  }

  /** Every vertex has a place, and no other is on the side. */
  #keepFitting() {
    while (this.places.length < this.state.n) this.places.push(free(this.places));
    for (const vertex of this.side) if (vertex >= this.state.n) this.side.delete(vertex);
  }

  /** A new session from a state, with moves that are ahead; places are a list, a function of the aspect, or the usual. */
  begin({ start, moves = [], places = null, store = this.store ?? new Store() }) {
    const put = typeof places === "function" ? places(this.aspect) : (places ?? usual(start.n, this.aspect));
    this.open({ session: new Session(start, moves), places: put, store });
  }

  /** A session as it is. */
  open({ session, places, store }) {
    Object.assign(this, { session, places: places.map((place) => [...place]), store, side: new Set() });
    this.#tell({ opened: true });
  }

  /** Does a move at a vertex, if it has one: tells the answer, a refusal too. */
  act(move, vertex = null) {
    const answer = this.session.do(move);
    this.#tell({ move, answer, vertex });
    return answer;
  }

  /** Goes to the point after k moves. */
  goTo(k) {
    const before = this.session.at;
    this.session.goTo(k);
    const { at, moves, answers } = this.session;
    const step = at === before + 1 ? { move: moves[before], answer: answers[before] } : {};
    this.#tell({ ...step, went: true });
  }

  undo() {
    if (this.session.canUndo) this.goTo(this.session.at - 1);
  }

  redo() {
    if (this.session.canRedo) this.goTo(this.session.at + 1);
  }

  bringBack() {
    this.session.bringBack();
    this.#tell({ went: true });
  }

  setSide(vertices) {
    this.side = new Set(vertices);
    this.#tell({ side: true });
  }

  toggleSide(vertex) {
    if (!this.side.delete(vertex)) this.side.add(vertex);
    this.#tell({ side: true });
  }

  /** Moves vertices to places, from 0 to 1 right and down. */
  move(vertex, [x, y]) {
    this.places[vertex] = [Math.max(0, Math.min(1, x)), Math.max(0, Math.min(1, y))];
    this.#tell({ moved: vertex });
  }

  arrange(places) {
    this.places = places.map((place) => [...place]);
    this.#tell({ arranged: true });
  }

  save(name) {
    this.store.save(name, this.state);
    this.#tell({ kept: true });
  }

  forget(name) {
    this.store.forget(name);
    this.#tell({ kept: true });
  }

  link(whole = true) {
    return whole ? linkOf(this) : stateLink(this);
  }
}
