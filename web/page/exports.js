// What a session is written as: strings, record, list, jobs, and a drawing.
import { SYMBOLS, jobText } from "../engine/index.js";
import { pathOf } from "./lines.js";
import * as moves from "./moves.js";

/** A job that makes the state: H everywhere, CZ along the edges, the gates, and measurements of the used qubits. */
export function jobOfState(state) {
  const each = state.codes.map((_, q) => q);
  const gates = each.filter((q) => state.codes[q] !== 0).map((q) => moves.gate(q, state.codes[q]).step);
  const used = each.filter((q) => state.isUsed(q)).map((q) => [moves.MEASURE, q, 0, state.codes[q] >> 1]);
  const edges = state.edges().map(([a, b]) => [moves.CZ, a, b, 0]);
  return jobText(state.n, [...each.map((q) => moves.gate(q, 8).step), ...edges, ...gates, ...used]);
}

/** The moves that were done as a job, or null where they are none: it starts in +Z and has the steps of jobs alone. */
export function jobOfSession(session) {
  const { start, state, at } = session;
  const zeros = start.used === 0n && start.edges().length === 0 && start.codes.every((code) => code === 8);
  const grows = state.n !== start.n;
  const steps = [];
  for (let k = 0; k < at; k++) {
    const answer = session.answers[k];
    const more = moves.stepsOf(session.moves[k], answer, session.stateAt(k).n);
    if (!zeros || more === null) return null;
    if (!answer.refusal || !grows) steps.push(...more);
  }
  return zeros && steps.length <= 4096 ? jobText(state.n, steps) : null;
}

const STYLE =
  "text{font:13px sans-serif;text-anchor:middle}" +
  ".gate{font-size:12px;fill:#8a3b12;stroke:#ffffff;stroke-width:3;paint-order:stroke}" +
  ".edge{stroke:#6b7280;stroke-width:1.6;fill:none}";

/** The place of a gate's name: away from the middle. */
export function besides([x, y], [u, v], letters, radius) {
  const length = Math.hypot(x - u, y - v);
  if (length < 1) return [x + radius + 4 * letters, y - radius];
  const away = radius + 9 + (3.4 * letters * Math.abs(x - u)) / length;
  return [x + (away * (x - u)) / length, y + (away * (y - v)) / length];
}

const USED = { fill: "#ffffff", ink: "#6b7280", dash: ' stroke-dasharray="3 2"' };
const THERE = { fill: "#1e3a8a", ink: "#ffffff", dash: "" };

/** A vertex with its number, and its gate beside it. */
function vertexDrawn(state, q, point, middle) {
  const { fill, ink, dash } = state.isUsed(q) ? USED : THERE;
  const symbol = SYMBOLS[state.codes[q]];
  const [[x, y], [u, v]] = [point, besides(point, middle, symbol.length, 13)].map((at) => at.map((part) => part.toFixed(1)));
  const parts = [
    `<circle cx="${x}" cy="${y}" r="13" fill="${fill}" stroke="#1e3a8a"${dash}/>`,
    `<text x="${x}" y="${y}" dy=".35em" fill="${ink}">${q}</text>`,
  ];
  return symbol ? [...parts, `<text class="gate" x="${u}" y="${v}" dy=".35em">${symbol}</text>`] : parts;
}

/** A drawing that stands by itself, in the places that the page shows. */
export function drawing(state, places, width = 640, height = 480) {
  const at = places.map(([x, y]) => [50 + x * (width - 100), 45 + y * (height - 90)]);
  const edges = state.edges().map((edge) => `<path class="edge" d="${pathOf([edge], at, 13)}"/>`);
  const middle = [width / 2, height / 2];
  const vertices = at.flatMap((point, q) => vertexDrawn(state, q, point, middle));
  const size = `width="${width}" height="${height}"`;
  const head = `<svg xmlns="http://www.w3.org/2000/svg" viewBox="0 0 ${width} ${height}" ${size}>`;
  const ground = `<rect ${size} fill="#ffffff"/>`;
  return `${[head, `<style>${STYLE}</style>`, ground, ...edges, ...vertices, "</svg>"].join("\n")}\n`;
}

/** name: [what it is, the file's name, its text, or null where there is none] */
export const EXPORTS = {
  strings: ["Pauli strings", "state.txt", ({ session }) => String(session.state.generators())],
  record: ["Record", "record.txt", ({ session }) => String(session.state)],
  list: ["Generator list (sign z x)", "list.txt", ({ session }) => session.state.generators().text()],
  steps: ["Job: the steps so far", "job.txt", ({ session }) => jobOfSession(session)],
  job: ["Job: makes this state", "job.txt", ({ session }) => jobOfState(session.state)],
  svg: ["Drawing (SVG)", "graph.svg", ({ session: { state }, places }) => drawing(state, places.slice(0, state.n))],
};
