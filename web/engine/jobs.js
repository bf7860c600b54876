// Jobs: sessions written as text, one step a line, drawn from a seed or typed by hand.
import { OPS, jobFault } from "./forms.js";
import { call, wordCell } from "./library.js";
import { place, whole } from "./numbers.js";
import { Refusal, accept } from "./refusals.js";

export { OPS };

const TEXT_PLACES = 61463;
const MOST_STEPS = 4096;

/** The text of a job that anyone can repeat: `count` steps on n qubits, drawn from a seed that is not 0. */
export function generate(n, count, seed) {
  const [text, length] = [new Uint8Array(TEXT_PLACES), wordCell()];
  accept(call("generate", place(n), place(count), whole(seed), text, length));
  return new TextDecoder().decode(text.subarray(0, Number(length.value)));
}

/** The text of steps on n qubits, each an operation's number, two qubits and a value. */
export function jobText(n, steps) {
  return `qubits\n${n}\nop a b value\n${steps.map(([op, ...fields]) => `${OPS[op]} ${fields.join(" ")}\n`).join("")}`;
}

/** n and the steps of a job text; refused by 1, 15 or 2. */
export function parseJob(text) {
  const fault = jobFault(text);
  if (fault) throw new Refusal(1, fault);
  const [, n, , ...lines] = text.split("\n").slice(0, -1);
  if (lines.length > MOST_STEPS) throw new Refusal(15);
  if (n < 1 || n > 64) throw new Refusal(2);
  const steps = lines.map((line) => line.split(" ")).map(([op, ...fields]) => [OPS.indexOf(op), ...fields.map(Number)]);
  return { n: Number(n), steps };
}
