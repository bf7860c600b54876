// The keyboard: arrows go from vertex to vertex, Enter uses the tool, letters choose tools.

const WAYS = { ArrowLeft: [-1, 0], ArrowRight: [1, 0], ArrowUp: [0, -1], ArrowDown: [0, 1] };
const STEP = 0.02;

/** The vertex that lies nearest in a direction: sideways counts double. */
export function towards(points, vertex, [dx, dy]) {
  const [x, y] = points[vertex];
  let [best, least] = [vertex, Infinity];
  points.forEach(([u, v], q) => {
    const along = (u - x) * dx + (v - y) * dy;
    const worth = along + 2 * Math.abs((u - x) * dy + (v - y) * dx);
    if (q !== vertex && along > 1 && worth < least) [best, least] = [q, worth];
  });
  return best;
}

/** Keys on the vertices. `does` has use(vertex) and shift(vertex, by). */
export function vertexKeys(view, does) {
  const go = (vertex) => {
    view.rove(vertex);
    view.element(vertex).focus();
  };
  view.root.addEventListener("keydown", (event) => {
    const vertex = Number(event.target.dataset?.vertex ?? NaN);
    if (Number.isNaN(vertex) || event.ctrlKey || event.metaKey) return;
    const way = WAYS[event.key];
    if (way && event.altKey) does.shift(vertex, way.map((part) => part * STEP));
    else if (way) go(towards(view.points, vertex, way));
    else if (event.key === "Home") go(0);
    else if (event.key === "End") go(view.points.length - 1);
    else if (event.key === "Enter" || event.key === " ") does.use(vertex, event);
    else return;
    event.preventDefault();
  });
  view.root.addEventListener("focusin", ({ target }) => target.dataset?.vertex && view.rove(Number(target.dataset.vertex)));
}

const typing = (element) => element.closest("input, textarea, select, dialog") !== null;

/** Keys anywhere: undo and redo, and letters where nothing is typed. */
export function pageKeys({ undo, redo, escape, letter }) {
  document.addEventListener("keydown", (event) => {
    const key = event.key.toLowerCase();
    const control = event.ctrlKey || event.metaKey;
    if (typing(event.target)) return;
    if (control && (key === "y" || (key === "z" && event.shiftKey))) redo();
    else if (control && key === "z") undo();
    else if (key === "escape") escape();
    else if (control || event.altKey || !letter(key)) return;
    event.preventDefault();
  });
}
