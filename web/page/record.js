// The record as a table, and its generators as strings.
import { NAMES } from "../engine/index.js";
import { $, el, say, tableRow } from "./dom.js";

const COLOURED = 20;

/** A string with its letters in colours, equal neighbours together. */
function coloured(line) {
  const pieces = [line[0], ...(line.slice(1).match(/(.)\1*/g) ?? [])];
  return pieces.map((piece, k) => (k === 0 ? piece : el("span", { class: piece[0] }, piece)));
}

function drawGenerators(state) {
  const strings = state.generators().strings();
  const parts = state.n > COLOURED ? [strings.join("\n")] : strings.flatMap((line) => [...coloured(line), "\n"]);
  $("generators").replaceChildren(...parts);
}

function row(state, q) {
  const code = state.codes[q];
  return tableRow([q, code, NAMES[code], state.neighboursOf(q).join(" ") || "–", state.isUsed(q) ? "used" : ""]);
}

/** Draws both. */
export function drawRecord(state) {
  drawGenerators(state);
  $("record").tBodies[0].replaceChildren(...state.codes.map((_, q) => row(state, q)));
  const reduced = state.isReduced();
  say($("reduced"), reduced ? "reduced" : "not reduced");
  $("reduce").hidden = reduced;
}
