// States to begin with.
import { State } from "../engine/index.js";
import { circle, grid } from "./places.js";

const ring = (n) => Array.from({ length: n }, (_, q) => [q, (q + 1) % n]).filter(([a, b]) => a !== b);
const path = (n) => ring(n).slice(0, n - 1);
const star = (n) => Array.from({ length: n - 1 }, (_, q) => [0, q + 1]);
const complete = (n) => Array.from({ length: n }, (_, a) => Array.from({ length: a }, (_, b) => [b, a])).flat();

function lattice(rows, columns) {
  const edges = [];
  for (let q = 0; q < rows * columns; q++) {
    if (q % columns < columns - 1) edges.push([q, q + 1]);
    if (q + columns < rows * columns) edges.push([q, q + columns]);
  }
  return edges;
}

const round = (n) => (aspect) => circle(n, aspect);
const around = (n) => (aspect) => [[0.5, 0.5], ...circle(n - 1, aspect)];
const rows = (n, columns) => () => grid(n, columns);

/** Families of graphs on any number of vertices, for comparisons. */
export const FAMILIES = { ring, path, star, "complete graph": complete };

/** name: the state, and its places in an area of some width over height */
export const EXAMPLES = {
  "Ring of 6": () => ({ state: State.graph(6, ring(6)), places: round(6) }),
  "Bell pair": () => ({ state: State.fromStrings("+XX", "+ZZ"), places: () => [[0.2, 0.5], [0.8, 0.5]] }),
  "GHZ state on 5": () => ({ state: State.fromStrings("+XXXXX", "+ZZIII", "+IZZII", "+IIZZI", "+IIIZZ"), places: round(5) }),
  "Star of 7": () => ({ state: State.graph(7, star(7)), places: around(7) }),
  "Five-qubit code, logical zero": () => ({
    state: State.fromStrings("+XZZXI", "+IXZZX", "+XIXZZ", "+ZXIXZ", "+ZZZZZ"),
    places: round(5),
  }),
  "Seven-qubit code, logical zero": () => ({
    state: State.fromStrings("+IIIXXXX", "+IXXIIXX", "+XIXIXIX", "+IIIZZZZ", "+IZZIIZZ", "+ZIZIZIZ", "+ZZZZZZZ"),
    places: round(7),
  }),
  "Cluster of 4 × 4": () => ({ state: State.graph(16, lattice(4, 4)), places: rows(16, 4) }),
  "Cluster of 8 × 8": () => ({ state: State.graph(64, lattice(8, 8)), places: rows(64, 8) }),
  "Ring of 64": () => ({ state: State.graph(64, ring(64)), places: round(64) }),
};
