// Edges as paths: straight, or bent where a straight line would run through another vertex.

const BEND = 0.16;

/** How far a point is from the line between two others; beyond its ends, far. */
function apart([x, y], [a, b], [c, d]) {
  const [dx, dy] = [c - a, d - b];
  const length = dx * dx + dy * dy;
  const along = length === 0 ? -1 : ((x - a) * dx + (y - b) * dy) / length;
  if (along <= 0 || along >= 1) return Infinity;
  return Math.abs((x - a) * dy - (y - b) * dx) / Math.sqrt(length);
}

const text = ([x, y]) => `${x.toFixed(1)} ${y.toFixed(1)}`;

/** The path of an edge between points, vertices having a radius; straight in any case where that is 0. */
function path([a, b], points, radius) {
  const [from, to] = [points[a], points[b]];
  const hit = radius > 0 && points.some((point, q) => q !== a && q !== b && apart(point, from, to) < radius);
  if (!hit) return `M${text(from)}L${text(to)}`;
  const [dx, dy] = [to[0] - from[0], to[1] - from[1]];
  const by = Math.max(BEND, (1.9 * radius) / Math.hypot(dx, dy));
  const turn = [(from[0] + to[0]) / 2 - by * dy, (from[1] + to[1]) / 2 + by * dx];
  return `M${text(from)}Q${text(turn)} ${text(to)}`;
}

/** Edges as the text of one path. */
export const pathOf = (edges, points, radius) => edges.map((edge) => path(edge, points, radius)).join("");
