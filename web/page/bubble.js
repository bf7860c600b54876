// What a move answered, told beside the vertex where it happened and in the line below the graph.
import { TEXTS } from "../engine/index.js";
import { el, say } from "./dom.js";
import { answered, hint, said } from "./words.js";

const SHOWN = 2600;

/** A refusal's number and words, and what helps. */
function refusalLines(move, refusal) {
  const words = el("p", {}, el("strong", {}, `Refused ${refusal}`), `: ${TEXTS.get(refusal)}`);
  const helps = hint(move, refusal);
  return helps ? [words, el("p", {}, helps)] : [words];
}

export class Bubble {
  #timer = 0;

  constructor(element, status) {
    Object.assign(this, { element, status });
  }

  hide() {
    clearTimeout(this.#timer);
    this.element.hidden = true;
  }

  /** Puts the bubble under a point, or above it where there is no room. */
  #put([x, y], radius) {
    const { width, height } = this.element.parentElement.getBoundingClientRect();
    const [own, high] = [this.element.offsetWidth / 2 + 6, this.element.offsetHeight];
    const below = y + radius + 8;
    this.element.style.left = `${Math.max(own, Math.min(width - own, x))}px`;
    const above = y - radius - 8 - high;
    const lowest = Math.max(4, height - high - 4);
    this.element.style.top = `${below > lowest && above >= 0 ? above : Math.min(below, lowest)}px`;
  }

  /** Tells an answer; a refusal stays until something else happens. */
  tell({ move, answer }, point, radius) {
    this.hide();
    const text = answered(answer);
    say(this.status, text ? `${said(move)}: ${text}` : said(move), answer.refusal > 0);
    if (!text || !point) return;
    const refused = answer.refusal > 0;
    this.element.className = refused ? "bubble refused" : "bubble";
    this.element.replaceChildren(...(refused ? refusalLines(move, answer.refusal) : [el("p", {}, text)]));
    this.element.hidden = false;
    this.#put(point, radius);
    if (!refused) this.#timer = setTimeout(() => this.hide(), SHOWN);
  }
}
