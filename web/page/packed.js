// A record as a short text of letters, digits, hyphens and underscores, for links: n, codes, edges, used qubits.
import { State, Refusal } from "../engine/index.js";

const SIX = "ABCDEFGHIJKLMNOPQRSTUVWXYZabcdefghijklmnopqrstuvwxyz0123456789-_";

/** Bits, six a character. */
function sixes(bits) {
  let text = "";
  for (let at = 0; at < bits.length; at += 6) text += SIX[parseInt(bits.slice(at, at + 6).padEnd(6, "0"), 2)];
  return text.replace(/A+$/, "");
}

function unsixed(text, length) {
  const bits = Array.from(text, (six) => SIX.indexOf(six).toString(2).padStart(6, "0")).join("");
  return bits.padEnd(length, "0").slice(0, length);
}

/** The pairs of n vertices: 0-1, 0-2, and so on. */
function pairs(n) {
  const above = (a) => Array.from({ length: n - 1 - a }, (_, k) => [a, a + 1 + k]);
  return Array.from({ length: n }, (_, a) => above(a)).flat();
}

export function packed(state) {
  const { n, neighbours, codes, used } = state;
  const edges = pairs(n).map(([a, b]) => String((neighbours[a] >> BigInt(b)) & 1n)).join("");
  const letters = codes.map((code) => SIX[code]).join("");
  return [n, letters, sixes(edges), used.toString(16)].join(".");
}

/** The state of a packed record; refused by 1 where it is none. */
export function unpacked(text) {
  const found = /^([1-9][0-9]?)\.([A-X]+)\.([\w-]*)\.([0-9a-f]{1,16})$/.exec(text);
  const n = Number(found?.[1]);
  if (!found || n > 64 || found[2].length !== n) throw new Refusal(1, "the link has a record that is none");
  const bits = unsixed(found[3], (n * (n - 1)) / 2);
  const edges = pairs(n).filter((_, k) => bits[k] === "1");
  const graph = State.graph(n, edges);
  return new State(graph.neighbours, Array.from(found[2], (letter) => SIX.indexOf(letter)), BigInt(`0x${found[4]}`));
}
