// A session: where it started, its moves, and how many of them are done. Undo and redo go back and forth in it; the steps
// of a loaded job are moves that are still ahead.
import { done, doneTogether } from "./moves.js";

/** States are kept at every so many moves, and where the session stood. */
const EVERY = 64;

export class Session {
  #states;

  constructor(start, moves = [], at = 0) {
    this.start = start;
    this.moves = moves;
    this.answers = [];
    this.#states = [start];
    this.at = 0;
    this.dropped = null;
    this.goTo(at);
  }

  /** The state now. */
  get state() {
    return this.#states[this.at];
  }

  /** The state after the first k moves. */
  stateAt(k) {
    let place = k;
    while (!this.#states[place]) place -= 1;
    while (place < k) place = this.#forward(place, k);
    return this.#states[k];
  }

  /** Does moves from a place on, at most up to k, steps of jobs together; answers the place that was reached. */
  #forward(place, k) {
    const end = Math.min(k, place - (place % EVERY) + EVERY);
    let next = place;
    while (next < end && this.moves[next].kind === "job") next += 1;
    const jobs = this.moves.slice(place, next);
    const { state, answers } = jobs.length > 1 ? doneTogether(this.#states[place], jobs) : this.#one(place);
    answers.forEach((answer, j) => (this.answers[place + j] = answer));
    this.#states[place + answers.length] = state;
    return place + answers.length;
  }

  #one(place) {
    const { state, ...answer } = done(this.#states[place], this.moves[place]);
    return { state, answers: [answer] };
  }

  /** Does a move now and keeps it, where it is not refused. What was ahead is dropped, and can be brought back. */
  do(move) {
    const answer = done(this.state, move);
    if (answer.refusal) return answer;
    const ahead = this.moves.slice(this.at);
    this.dropped = ahead.length ? { at: this.at, moves: ahead } : null;
    this.#cutTo(this.at);
    this.moves.push(move);
    this.at += 1;
    this.answers[this.at - 1] = answer;
    this.#states[this.at] = answer.state;
    return answer;
  }

  #cutTo(k) {
    this.moves.length = k;
    this.answers.length = Math.min(this.answers.length, k);
    this.#states.length = Math.min(this.#states.length, k + 1);
  }

  /** Brings back what the last move dropped, in place of that move. */
  bringBack() {
    if (!this.dropped) return;
    const { at, moves } = this.dropped;
    this.#cutTo(at);
    this.moves.push(...moves);
    this.at = at;
    this.dropped = null;
  }

  /** Goes to the point after k moves; nearer where there are not so many. */
  goTo(k) {
    this.at = Math.max(0, Math.min(k, this.moves.length));
    this.stateAt(this.at);
  }

  get canUndo() {
    return this.at > 0;
  }

  get canRedo() {
    return this.at < this.moves.length;
  }
}
