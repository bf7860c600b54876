// A graph in SVG: one path for the edges, one group for each vertex. Only what has changed is touched.
import { NAMES, SYMBOLS } from "../engine/index.js";
import { put, svg } from "./dom.js";
import { besides } from "./exports.js";
import { pathOf } from "./lines.js";
import { stateName } from "./words.js";

const DENSE = 300;

/** The edges of states that were drawn; a state that is drawn does not change any more. */
const known = new WeakMap();

/** The edges of a state, found once. */
export function edgesOf(state) {
  if (!known.has(state)) known.set(state, state.edges());
  return known.get(state);
}

/** What a vertex is, for a reader of the screen. */
function label(state, vertex, side) {
  const near = state.neighboursOf(vertex);
  const joined = near.length ? `joined to ${near.join(", ")}` : "no neighbours";
  const code = state.codes[vertex];
  const what = state.isUsed(vertex) ? `used, left in ${stateName(code)}` : `gate ${NAMES[code]}, ${joined}`;
  return `Qubit ${vertex}, ${what}${side.has(vertex) ? ", on the side" : ""}`;
}

/** The letters beside a vertex: its gate, or the state in which a measurement left it. */
function lettersOf(state, vertex) {
  const code = state.codes[vertex];
  return state.isUsed(vertex) ? stateName(code) : SYMBOLS[code];
}

const LAYERS = ["loop", "edges", "crossing", "gone", "fresh", "rubber"];

export class GraphView {
  #vertices = [];

  constructor(root) {
    this.root = root;
    this.paths = Object.fromEntries(LAYERS.map((name) => [name, svg("path", { class: name })]));
    this.group = svg("g");
    root.replaceChildren(...Object.values(this.paths), this.group);
    this.points = [];
    this.radius = 0;
    this.round = 0;
  }

  get size() {
    const { width, height } = this.root.getBoundingClientRect();
    return [width || 640, height || 480];
  }

  #margins(n) {
    return n > 20 ? [28, 26] : [52, 46];
  }

  /** The radius of a vertex, by how near most vertices are to their nearest. */
  #radius() {
    const apart = ([x, y], q) => this.points.map(([u, v], k) => (k === q ? Infinity : Math.hypot(x - u, y - v)));
    const nearest = this.points.map((point, q) => Math.min(...apart(point, q)));
    const usual = nearest.sort((a, b) => a - b)[Math.floor(nearest.length / 4)];
    return Math.min(18, Math.max(usual * 0.3, Math.min(10, usual * 0.44), 6));
  }

  /** Where a place is drawn, in pixels. */
  point([x, y], n) {
    const [[width, height], [across, down]] = [this.size, this.#margins(n)];
    return [across + x * (width - 2 * across), down + y * (height - 2 * down)];
  }

  /** The place of a point. */
  place([x, y], n) {
    const [[width, height], [across, down]] = [this.size, this.#margins(n)];
    return [(x - across) / (width - 2 * across), (y - down) / (height - 2 * down)];
  }

  /** The nearest vertex that a finger or the mouse can mean, or null. */
  vertexAt([x, y], reach = 26) {
    const far = this.points.map(([u, v]) => Math.hypot(x - u, y - v));
    const nearest = far.indexOf(Math.min(...far));
    return far[nearest] <= reach ? nearest : null;
  }

  /** Draws a state: places, the vertices on the side, one that a pair begins with, edges that are new or gone. */
  draw({ state, places, side = new Set(), from = null, centre = null, fresh = null, gone = null }) {
    const { n } = state;
    this.points = places.slice(0, n).map((place) => this.point(place, n));
    this.radius = this.#radius();
    this.#drawEdges(state, side, fresh, gone);
    this.#count(n);
    const { radius } = this;
    const middle = this.size.map((length) => length / 2);
    put(this.group, "style", `--number: ${Math.min(13, radius * 0.95).toFixed(1)}px`);
    for (let q = 0; q < n; q++) this.#drawVertex(q, { state, side, from, centre, radius, middle });
    this.root.classList.toggle("many", n > 20);
  }

  #drawEdges(state, side, fresh, gone) {
    const edges = edgesOf(state);
    const crosses = ([a, b]) => side.has(a) !== side.has(b);
    const dense = edges.length > DENSE;
    this.round = dense ? 0 : this.radius;
    put(this.paths.edges, "d", this.#path(edges.filter((edge) => !crosses(edge))));
    put(this.paths.crossing, "d", this.#path(edges.filter(crosses)));
    this.#drawAnew("gone", gone);
    this.#drawAnew("fresh", fresh);
    this.root.classList.toggle("dense", dense);
  }

  /** Edges as a path, bent round vertices where they are not too many. */
  #path(edges) {
    return pathOf(edges, this.points, this.round);
  }

  /** Edges that come or go, in a new element, so that what the style does with them begins anew; null leaves them. */
  #drawAnew(name, edges) {
    if (edges === null) return;
    const path = svg("path", { class: name, d: this.#path(edges) });
    this.paths[name].replaceWith(path);
    this.paths[name] = path;
  }

  #count(n) {
    while (this.#vertices.length > n) this.#vertices.pop().group.remove();
    while (this.#vertices.length < n) this.#vertices.push(this.#made(this.#vertices.length));
  }

  #made(q) {
    const [ring, body] = [svg("circle", { class: "ring" }), svg("circle", { class: "body" })];
    const [number, letters] = [svg("text", { class: "number" }, String(q)), svg("text", { class: "letters" })];
    const given = { class: "vertex", "data-vertex": q, role: "button", tabindex: q === 0 ? 0 : -1 };
    const group = svg("g", given, ring, body, number, letters);
    this.group.append(group);
    return { group, ring, body, letters };
  }

  #drawVertex(q, { state, side, from, centre, radius, middle }) {
    const { group, ring, body, letters } = this.#vertices[q];
    const [point, symbol] = [this.points[q], lettersOf(state, q)];
    put(group, "transform", `translate(${point[0].toFixed(1)} ${point[1].toFixed(1)})`);
    put(body, "r", radius.toFixed(1));
    put(ring, "r", (radius + 4).toFixed(1));
    const away = besides(point, middle, symbol.length, radius + (side.has(q) ? 4 : 0));
    const [x, y] = state.n > 20 ? [0, radius + 8] : away.map((at, axis) => at - point[axis]);
    put(letters, "x", x.toFixed(1));
    put(letters, "y", y.toFixed(1));
    if (letters.textContent !== symbol) letters.textContent = symbol;
    const marks = { used: state.isUsed(q), side: side.has(q), from: from === q, centre: centre === q };
    put(group, "class", ["vertex", ...Object.keys(marks).filter((mark) => marks[mark])].join(" "));
    put(group, "aria-label", label(state, q, side));
    put(group, "aria-pressed", String(side.has(q) || from === q));
  }

  /** The element of a vertex. */
  element(q) {
    return this.#vertices[q]?.group;
  }

  /** Makes one vertex the one that Tab comes to. */
  rove(q) {
    for (const [k, { group }] of this.#vertices.entries()) put(group, "tabindex", k === q ? "0" : "-1");
  }

  loop(points) {
    const corners = points.map(([x, y]) => `${x.toFixed(1)} ${y.toFixed(1)}`);
    put(this.paths.loop, "d", points.length > 1 ? `M${corners.join("L")}Z` : "");
  }

  rubber(ends) {
    put(this.paths.rubber, "d", ends ? `M${ends[0].join(" ")}L${ends[1].join(" ")}` : "");
  }
}
