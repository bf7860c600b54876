// Moves, answers and refusals in words.
import { NAMES, OPS, TEXTS } from "../engine/index.js";

const STATES = { 0: "+X", 2: "−X", 4: "+Y", 6: "−Y", 8: "+Z", 10: "−Z" };

/** The name of the state that a code makes of one photon. */
export const stateName = (code) => STATES[code] ?? `the code ${code}`;

const STEPS = {
  gate: (a, b, value) => `${NAMES[value] ?? `code ${value}`} at ${a}`,
  cz: (a, b) => `CZ on ${a} and ${b}`,
  measure: (a, b, value) => `measure ${"XYZ"[value >> 1] ?? "?"} at ${a} with ${value & 1}`,
  complement: (a) => `complement at ${a}`,
  pivot: (a, b) => `pivot on ${a} and ${b}`,
};

const SAID = {
  job: ({ step: [op, a, b, value] }) => STEPS[OPS[op]](a, b, value),
  pair: ({ name, a, b }) => `${name} on ${a} and ${b}`,
  observe: ({ pauli, qubit }) => `measure ${pauli} at ${qubit} by lot`,
  product: ({ factors }) => `measure ${factors.replaceAll("*", "·")} by lot`,
  reset: ({ pauli, qubit, told }) => `${told ? `measure ${pauli} at ${qubit} by lot, then ` : ""}reset ${qubit} to +${pauli}`,
  renew: ({ qubit, code }) => `renew ${qubit} in ${stateName(code)}`,
  add: ({ code }) => `add a qubit in ${stateName(code)}`,
  set: () => "return to a named state",
  reduce: () => "reduce the record",
};

export const said = (move) => SAID[move.kind](move);

/** What a move answered: an outcome, a refusal, or nothing. */
export function answered({ refusal, outcome, determined, told }) {
  if (refusal) return `refused ${refusal}: ${TEXTS.get(refusal)}`;
  return told ? `outcome ${outcome}, ${determined ? "determined" : "not determined"}` : "";
}

const opposite = (move) => ("XYZ"[move.step[3] >> 1] ?? "this");

const HINTS = {
  2: () => "64 qubits are the most.",
  6: () => "A field has a value that its operation does not take.",
  8: () => "Take two different qubits that are there; a pivot needs an edge between them.",
  16: () => "A measured photon is gone. Renew it to go on with a new one at its place.",
  20: () => "Only a measured photon's place can be renewed.",
  14: (move) => `The state fixes ${opposite(move)} here: only the other outcome can come.`,
};

/** What helps after a refusal, or nothing. */
export const hint = (move, refusal) => HINTS[refusal]?.(move) ?? "";
