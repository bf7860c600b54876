// The list of the session's steps, those done and those ahead, of which only the lines in sight are made; and the player.
import { $, el, say } from "./dom.js";
import { answered, said } from "./words.js";

const LINE = 30;
const PACE = 500;

/** The line of step k: its number, what it does, what it answered. */
function line(bench, k) {
  const { moves, answers, at } = bench.session;
  const told = k < at ? answered(answers[k]) : "";
  const marks = { ahead: k >= at, now: k === at - 1, refused: k < at && answers[k].refusal > 0 };
  const parts = { k: String(k), what: said(moves[k]), told };
  const spoken = { "aria-selected": String(k === at - 1), "aria-setsize": moves.length, "aria-posinset": k + 1 };
  const given = { id: `step-${k}`, role: "option", class: Object.keys(marks).filter((mark) => marks[mark]).join(" ") };
  return el("li", { ...given, ...spoken, title: told, onclick: () => bench.goTo(k + 1) },
    ...Object.entries(parts).map(([name, text]) => el("span", { class: name }, text)));
}

export class Steps {
  #timer = 0;

  constructor(bench) {
    this.bench = bench;
    this.list = $("steps");
    this.lines = el("ol", { role: "presentation" });
    this.height = el("div", { role: "presentation" });
    this.list.append(this.height, this.lines);
    this.list.addEventListener("scroll", () => this.#window());
    this.list.addEventListener("keydown", (event) => this.#key(event));
    const go = (id, to) => $(id).addEventListener("click", () => (this.pause(), bench.goTo(to())));
    go("first", () => 0);
    go("back", () => bench.session.at - 1);
    go("forward", () => bench.session.at + 1);
    go("last", () => bench.session.moves.length);
    go("goto-do", () => Math.trunc(Number($("goto").value)) || 0);
    $("goto").addEventListener("keydown", (event) => event.key === "Enter" && $("goto-do").click());
    $("play").addEventListener("click", () => (this.#timer ? this.pause() : this.#play()));
  }

  #key(event) {
    const by = { ArrowDown: 1, ArrowUp: -1, PageDown: 10, PageUp: -10, Home: -Infinity, End: Infinity }[event.key];
    if (by === undefined) return;
    event.preventDefault();
    this.bench.goTo(this.bench.session.at + by);
  }

  #play() {
    $("play").textContent = "Pause";
    this.#timer = setInterval(() => (this.bench.session.canRedo ? this.bench.redo() : this.pause()), PACE);
    this.bench.redo();
  }

  pause() {
    clearInterval(this.#timer);
    this.#timer = 0;
    $("play").textContent = "Play";
  }

  /** Makes the lines in sight. */
  #window() {
    const { moves } = this.bench.session;
    const first = Math.max(0, Math.floor(this.list.scrollTop / LINE) - 4);
    const count = Math.ceil((this.list.clientHeight || 400) / LINE) + 8;
    const last = Math.min(moves.length, first + count);
    this.lines.style.top = `${first * LINE}px`;
    this.lines.replaceChildren();
    for (let k = first; k < last; k++) this.lines.append(line(this.bench, k));
  }

  /** Brings the line of a step into sight. */
  #scrollTo(k) {
    const { scrollTop, clientHeight } = this.list;
    if (k * LINE < scrollTop) this.list.scrollTop = Math.max(0, (k - 1) * LINE);
    else if ((k + 1) * LINE > scrollTop + clientHeight) this.list.scrollTop = (k + 3) * LINE - clientHeight;
  }

  draw() {
    const { at, moves, canUndo, canRedo } = this.bench.session;
    this.height.style.height = `${moves.length * LINE}px`;
    this.#scrollTo(at - 1);
    this.#window();
    if (at > 0) this.list.setAttribute("aria-activedescendant", `step-${at - 1}`);
    for (const id of ["first", "back"]) $(id).disabled = !canUndo;
    for (const id of ["play", "forward", "last"]) $(id).disabled = !canRedo;
    if (!canRedo) this.pause();
    $("goto").max = moves.length;
    say($("where"), moves.length ? `${at} of ${moves.length} done` : "no steps yet");
  }
}
