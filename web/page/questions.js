// What is asked of the state and answered again after every change: the entanglement of a side, the value of a row.
import { Refusal } from "../engine/index.js";
import { $, el, say } from "./dom.js";

/** The vertices of a typed side, or null where it is none. */
function typedSide(text, n) {
  const parts = text.trim().split(/[\s,;]+/).filter(Boolean);
  return parts.every((part) => /^\d+$/.test(part) && Number(part) < n) ? parts.map(Number) : null;
}

export function drawCut({ state, side }, typed) {
  const vertices = [...side].sort((a, b) => a - b);
  if (!typed) $("side").value = vertices.join(" ");
  if (!vertices.length) return say($("cut"), "No vertex is on the side: the entanglement is 0.");
  const rank = state.cut(vertices);
  const words = ` ${rank === 1 ? "ebit" : "ebits"} between ${vertices.length} on the side and ${state.n - vertices.length} others`;
  $("cut").classList.remove("bad");
  return $("cut").replaceChildren(el("span", { class: "value", id: "rank" }, String(rank)), words);
}

const VALUES = new Map([
  [1, ["+1", "the row is in the group"]],
  [-1, ["−1", "its negative is in the group"]],
  [0, ["0", "neither the row nor its negative is in the group"]],
]);

/** The row as it is typed, without spaces and in capitals. */
const typedRow = () => $("row").value.replaceAll(/\s/g, "").replaceAll("_", "I").replaceAll("−", "-").toUpperCase();

export function drawExpectation({ state }) {
  const row = typedRow();
  $("row").placeholder = `+${"XZ".repeat(32).slice(0, state.n)}`;
  if (!row) return say($("expectation"), `A sign and ${state.n} letters I, X, Y or Z, the leftmost for qubit 0.`);
  try {
    const value = state.expectation(row);
    const [number, words] = VALUES.get(value);
    $("expectation").classList.remove("bad");
    return $("expectation").replaceChildren(el("span", { class: "value", id: "value" }, number), `: ${words}`);
  } catch (error) {
    if (!(error instanceof Refusal)) throw error;
    const letters = row.replace(/^[+-]/, "").length;
    return say($("expectation"), `${error.message}${letters !== state.n ? ` (${letters} typed)` : ""}`, true);
  }
}

/** Listens to what is typed. */
export function askQuestions(bench, measureRow) {
  $("side").addEventListener("input", () => {
    const vertices = typedSide($("side").value, bench.state.n);
    if (vertices) bench.setSide(vertices);
    else say($("cut"), `Qubit numbers from 0 to ${bench.state.n - 1}, with spaces between them.`, true);
  });
  $("row").addEventListener("input", () => drawExpectation(bench));
  const measure = () => {
    if (measureRow(typedRow())) return;
    const identity = /^[+-]?I+$/.test(typedRow()) && "The identity has the value 1: there is nothing to measure.";
    if (identity) say($("expectation"), identity);
    else drawExpectation(bench);
  };
  $("row").addEventListener("keydown", (event) => event.key === "Enter" && measure());
  $("measure-row").addEventListener("click", measure);
}
