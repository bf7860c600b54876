// Mouse, pen and finger on the graph: a click on a vertex or a free place, a vertex that is dragged, a pair that is drawn,
// a loop round a side.

const STILL = 6;
const REACH = { touch: 30, pen: 26, mouse: 24 };

/** Whether a point lies within a closed line. */
export function within([x, y], loop) {
  let inside = false;
  for (let k = 0, j = loop.length - 1; k < loop.length; j = k++) {
    const [[a, b], [c, d]] = [loop[k], loop[j]];
    if (b > y !== d > y && x < ((c - a) * (y - b)) / (d - b) + a) inside = !inside;
  }
  return inside;
}

/** Listens on a view's drawing, and tells what was meant. */
export class Gestures {
  #hold = null;

  /**
   * `does` has click(vertex or null, point), drag(vertex, point), dragged(), pulls() (whether pulling from a vertex draws a
   * pair), pair(a, b) and loop(vertices, whether they join those that are marked).
   */
  constructor(view, does) {
    Object.assign(this, { view, does });
    view.root.addEventListener("pointerdown", (event) => this.#down(event));
    view.root.addEventListener("pointermove", (event) => this.#move(event));
    view.root.addEventListener("pointerup", (event) => this.#up(event));
    view.root.addEventListener("pointercancel", () => this.#leave());
  }

  #pointOf(event) {
    const { left, top } = this.view.root.getBoundingClientRect();
    return [event.clientX - left, event.clientY - top];
  }

  #down(event) {
    if (event.button !== 0 || this.#hold) return;
    const point = this.#pointOf(event);
    const vertex = this.view.vertexAt(point, REACH[event.pointerType] ?? REACH.mouse);
    this.#hold = { id: event.pointerId, from: point, vertex, moved: false, loop: [point] };
    this.view.root.setPointerCapture(event.pointerId);
  }

  #move(event) {
    const hold = this.#hold;
    if (hold?.id !== event.pointerId) return;
    const point = this.#pointOf(event);
    hold.moved ||= Math.hypot(point[0] - hold.from[0], point[1] - hold.from[1]) > STILL;
    if (hold.moved) this.#pulled(hold, point);
  }

  #pulled({ vertex, loop }, point) {
    if (vertex === null) {
      loop.push(point);
      this.view.loop(loop);
    } else if (this.does.pulls()) {
      this.view.rubber([this.view.points[vertex], point]);
    } else {
      this.does.drag(vertex, point);
    }
  }

  #up(event) {
    const hold = this.#hold;
    if (hold?.id !== event.pointerId) return;
    const point = this.#pointOf(event);
    this.#leave();
    if (!hold.moved) this.does.click(hold.vertex, point);
    else if (hold.vertex === null) this.does.loop(this.#inside(hold.loop), event.shiftKey);
    else this.#dropped(hold.vertex, point);
  }

  #inside(loop) {
    return [...this.view.points.keys()].filter((q) => within(this.view.points[q], loop));
  }

  #dropped(vertex, point) {
    const other = this.does.pulls() ? this.view.vertexAt(point) : null;
    if (other !== null && other !== vertex) this.does.pair(vertex, other);
    else this.does.dragged();
  }

  #leave() {
    this.#hold = null;
    this.view.loop([]);
    this.view.rubber(null);
  }
}
