// Texts that are pasted, each read as what it is: a job, a circuit, or a state.
import { State, parseJob, readState } from "../engine/index.js";
import * as moves from "./moves.js";
import { readStim } from "./stim.js";

/** What a text is, by its first line. */
export function kindOf(text) {
  const first = text.trimStart().split("\n", 1)[0].trim();
  if (first === "qubits") return "job";
  if (first.startsWith("sign z x") || first.startsWith("qubit code") || first.startsWith("step refusal")) return "state";
  return /^[+-][IXYZ]+$/.test(first) ? "state" : "circuit";
}

/** A text with the newline at its end that a paste may lose, and without blank lines round it or carriage returns. */
const tidy = (text) => `${text.replaceAll("\r\n", "\n").trim()}\n`;

/** Where a session starts and which moves are ahead, of a text; an Error or a Refusal that says what is wrong with it. */
export function loaded(text, draw) {
  const kind = kindOf(text);
  if (kind === "state") return { kind, start: readState(tidy(text)), moves: [] };
  if (kind === "circuit") {
    const circuit = readStim(text, draw);
    return { kind, start: State.zeros(circuit.n), moves: circuit.moves, places: circuit.places };
  }
  const { n, steps } = parseJob(tidy(text));
  return { kind, start: State.zeros(n), moves: steps.map((step) => moves.job(...step)) };
}
