// The amplitudes as bars: the height is the probability of a word, the colour and the sign above it the phase.
import { $, el, svg, say } from "./dom.js";

const MOST = 10;
const PHASES = ["+1", "+i", "−1", "−i"];
const [WIDTH, HEIGHT, BASE] = [440, 140, 112];

const phaseOf = ({ re, im }) => (re === 1 ? 0 : im === 1 ? 1 : re === -1 ? 2 : 3);

/** All amplitudes of a state on few qubits. */
export const table = (state) => Array.from({ length: 2 ** state.n }, (_, y) => state.amplitude(y));

const bitsOf = (y, n) => y.toString(2).padStart(n, "0");

/** A word's line, as it is told. */
function told(line, y, n) {
  if (line.p === 0) return `${bitsOf(y, n)}: amplitude 0`;
  return `${bitsOf(y, n)}: phase ${PHASES[phaseOf(line)]}, probability ${line.p === 1 ? 1 : `1/${1 / line.p}`}`;
}

function bars(lines) {
  const step = WIDTH / lines.length;
  const most = Math.max(...lines.map((line) => line.p));
  return lines.flatMap((line, y) => {
    if (line.p === 0) return [];
    const height = (line.p / most) * (BASE - 24);
    const shape = { x: y * step + step * 0.12, y: BASE - height, width: step * 0.76, height };
    const bar = svg("rect", { class: `phase-${phaseOf(line)}`, ...shape });
    return step < 20 ? [bar] : [bar, svg("text", { x: (y + 0.5) * step, y: BASE - height - 6 }, PHASES[phaseOf(line)])];
  });
}

/** The words below the bars, as many as there is room for. */
function words(n) {
  const step = WIDTH / 2 ** n;
  const wide = 7 * n + 6;
  const every = Math.max(1, 2 ** Math.ceil(Math.log2(wide / step)));
  const shown = Array.from({ length: Math.ceil(2 ** n / every) }, (_, k) => k * every);
  const left = every === 1 ? (step - wide + 6) / 2 : 0;
  return shown.map((y) => svg("text", { class: "word", x: y * step + left, y: BASE + 16 }, bitsOf(y, n)));
}

function legend() {
  const mark = (k) => el("i", { style: `background:var(--phase-${k})` });
  return el("p", { class: "legend" }, ...PHASES.map((phase, k) => el("span", {}, mark(k), `phase ${phase}`)));
}

/** A plot with a word that arrow keys and the mouse go along. */
class Plot {
  constructor(state) {
    this.n = state.n;
    this.lines = table(state);
    this.mark = svg("rect", { class: "at", y: 0, height: BASE, width: WIDTH / this.lines.length });
    this.said = el("p", { class: "answer", "aria-live": "polite", id: "amplitude-said" });
    const axis = svg("line", { class: "axis", x1: 0, x2: WIDTH, y1: BASE, y2: BASE });
    const range = { "aria-valuemin": 0, "aria-valuemax": this.lines.length - 1 };
    const does = { onkeydown: (event) => this.#key(event), onpointermove: (event) => this.#point(event) };
    const given = { class: "bars", viewBox: `0 0 ${WIDTH} ${HEIGHT}`, role: "slider", "aria-label": "Word", tabindex: 0 };
    this.plot = svg("svg", { ...given, ...range, ...does }, this.mark, ...bars(this.lines), axis, ...words(this.n));
    this.show(this.lines.findIndex((line) => line.p > 0));
  }

  show(y) {
    this.at = Math.max(0, Math.min(this.lines.length - 1, y));
    const text = told(this.lines[this.at], this.at, this.n);
    this.mark.setAttribute("x", (this.at * WIDTH) / this.lines.length);
    this.plot.setAttribute("aria-valuenow", this.at);
    this.plot.setAttribute("aria-valuetext", text);
    say(this.said, text);
  }

  #key(event) {
    const by = { ArrowRight: 1, ArrowUp: 1, ArrowLeft: -1, ArrowDown: -1, Home: -Infinity, End: Infinity }[event.key];
    if (by === undefined) return;
    event.preventDefault();
    this.show(this.at + by);
  }

  #point(event) {
    const { left, width } = this.plot.getBoundingClientRect();
    this.show(Math.floor(((event.clientX - left) / width) * this.lines.length));
  }

  elements() {
    const count = this.lines.filter((line) => line.p > 0).length;
    const words = `${count} of ${this.lines.length} words, over the amplitude at the smallest of them.`;
    const note = `${words} In a word qubit 0 stands last.`;
    return [this.plot, this.said, legend(), el("p", { class: "note" }, note)];
  }
}

/** The field for a word of many qubits; the one that is there stays. */
function wordField(n, room) {
  const held = $("word");
  if (held && Number(held.dataset.n) === n) return held;
  const plain = { spellcheck: "false", autocomplete: "off", "aria-describedby": "amplitude-said" };
  const field = el("input", { id: "word", class: "grow mono", "data-n": n, value: "0".repeat(n), ...plain });
  const note = `All 2^${n} words are too many to draw: ${MOST} qubits at most. ${n} bits, qubit 0 last.`;
  room.replaceChildren(el("div", { class: "row" }, el("label", { for: "word" }, "Word"), field),
    el("p", { class: "answer", id: "amplitude-said", "aria-live": "polite" }), el("p", { class: "note" }, note));
  return field;
}

/** The amplitude at one typed word. */
function drawOne(state, room) {
  const field = wordField(state.n, room);
  field.oninput = () => {
    const typed = field.value.trim();
    const good = /^[01]+$/.test(typed) && typed.length === state.n;
    if (!good) return say($("amplitude-said"), `${state.n} bits are needed (${typed.length} typed).`, true);
    const line = state.amplitude(BigInt(`0b${typed}`));
    const found = `phase ${PHASES[phaseOf(line)]}, probability 2^−${Math.round(-Math.log2(line.p))}`;
    return say($("amplitude-said"), line.p === 0 ? "amplitude 0" : found);
  };
  field.oninput();
}

/** Draws the bars of few qubits; of many asks for a word. */
export function drawAmplitudes(state) {
  const room = $("amplitudes");
  if (state.n > MOST) drawOne(state, room);
  else room.replaceChildren(...new Plot(state).elements());
}
