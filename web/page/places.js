// Places of vertices, right and down from 0 to 1, in layouts.

const TURN = 2 * Math.PI;

/** On a circle, vertex 0 on top, going right; of many vertices on all of an area of this width over height. */
export function circle(n, aspect = 1) {
  if (n === 1) return [[0.5, 0.5]];
  const [wide, high] = n > 24 ? [0.5, 0.5] : [0.5 / Math.max(1, aspect), 0.5 * Math.min(1, aspect)];
  const at = (angle) => [0.5 + wide * Math.sin(angle), 0.5 - high * Math.cos(angle)];
  return Array.from({ length: n }, (_, q) => at((TURN * q) / n));
}

const along = (k, count) => (count === 1 ? 0.5 : k / (count - 1));

/** Row by row, in so many columns. */
export function grid(n, columns) {
  const rows = Math.ceil(n / columns);
  return Array.from({ length: n }, (_, q) => [along(q % columns, columns), along(Math.floor(q / columns), rows)]);
}

export const line = (n) => grid(n, n);

/** The columns that suit an area of this width over height. */
export function columnsFor(n, aspect) {
  return Math.max(1, Math.min(n, Math.round(Math.sqrt(n * aspect))));
}

/** A circle of few vertices, rows of many. */
export function usual(n, aspect = 1) {
  if (n <= 14) return circle(n, aspect);
  return grid(n, n === 64 && aspect < 2 ? 8 : columnsFor(n, aspect));
}

/** A free place for one vertex more: of a lattice of places the one farthest from all others. */
export function free(places) {
  const spots = Array.from({ length: 81 }, (_, k) => [(k % 9) / 8, Math.floor(k / 9) / 8]);
  const far = ([x, y]) => Math.min(2, ...places.map(([u, v]) => Math.hypot(x - u, y - v)));
  const centred = ([x, y]) => Math.hypot(x - 0.5, y - 0.5);
  const worth = (spot) => Math.min(far(spot), 0.35) - 0.05 * centred(spot);
  return spots.reduce((best, spot) => (worth(spot) > worth(best) ? spot : best));
}

/** Forces of springs along edges and of repulsion between all, cooled down step by step. */
export function springs(edges, places, rounds = 120) {
  let now = places.map(([x, y], q) => [x + 1e-3 * Math.sin(q), y + 1e-3 * Math.cos(q)]);
  const ideal = 0.9 / Math.sqrt(Math.max(1, places.length));
  for (let round = 0; round < rounds; round++) now = relaxed(now, edges, ideal, 0.08 * (1 - round / rounds));
  return spread(now);
}

function relaxed(places, edges, ideal, most) {
  const forces = places.map(([x, y]) => [0.02 * (0.5 - x), 0.02 * (0.5 - y)]);
  const push = (a, b, strength) => {
    const [dx, dy] = [places[a][0] - places[b][0], places[a][1] - places[b][1]];
    const length = Math.max(1e-4, Math.hypot(dx, dy));
    const by = strength(length) / length;
    forces[a] = [forces[a][0] + dx * by, forces[a][1] + dy * by];
    forces[b] = [forces[b][0] - dx * by, forces[b][1] - dy * by];
  };
  for (let a = 0; a < places.length; a++) for (let b = 0; b < a; b++) push(a, b, (r) => (ideal * ideal) / r);
  for (const [a, b] of edges) push(a, b, (r) => -(r * r) / ideal);
  return places.map(([x, y], q) => {
    const length = Math.max(1e-9, Math.hypot(...forces[q]));
    const by = Math.min(most, length) / length;
    return [x + forces[q][0] * by, y + forces[q][1] * by];
  });
}

/** Places that fill the square from 0 to 1. */
function spread(places) {
  const axes = [0, 1].map((axis) => places.map((place) => place[axis]));
  const low = axes.map((axis) => Math.min(...axis));
  const size = axes.map((axis, k) => Math.max(...axis) - low[k]);
  const at = (value, axis) => (size[axis] < 1e-6 ? 0.5 : (value - low[axis]) / size[axis]);
  return places.map(([x, y]) => [at(x, 0), at(y, 1)]);
}
