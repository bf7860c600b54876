// Moves: what a click, a step of a job or a line of a circuit does to a state. A move is done as a whole or refused as a
// whole, and the state that it is given stays as it is.
import { OPS, Refusal, State } from "../engine/index.js";
import { PAIRS } from "./pairs.js";
import { unpacked } from "./packed.js";

export const [GATE, CZ, MEASURE, COMPLEMENT, PIVOT] = OPS.keys();

/** A step of a job: an operation's number, two qubits and a value. */
export const job = (...step) => ({ kind: "job", step });
export const gate = (qubit, code) => job(GATE, qubit, 0, code);
export const measure = (pauli, qubit, outcome) => job(MEASURE, qubit, 0, 2 * "XYZ".indexOf(pauli) + outcome);
export const complement = (vertex) => job(COMPLEMENT, vertex, 0, 0);
export const pair = (name, a, b) => (name === "CZ" ? job(CZ, a, b, 0) : { kind: "pair", name, a, b });
/** A measurement with a bit by lot; the qubit is used. */
export const observe = (pauli, qubit, bit) => ({ kind: "observe", pauli, qubit, bit });
/** A measurement of a product of Paulis, as X0*Z3, with a bit by lot; no qubit is used. */
export const product = (factors, bit) => ({ kind: "product", factors, bit });
/** The qubit is measured with a bit by lot, and turned into the plus state of the Pauli. */
export const reset = (pauli, qubit, bit, told = false) => ({ kind: "reset", pauli, qubit, bit, told });
export const renew = (qubit, code) => ({ kind: "renew", qubit, code });
export const add = (code) => ({ kind: "add", code });
/** The whole record, packed. */
export const set = (record) => ({ kind: "set", record });
export const reduce = () => ({ kind: "reduce" });

const FLIPS = { X: "Z", Y: "X", Z: "X" };

/** The row of a product of Paulis on n qubits. */
export function rowOf(factors, n) {
  const letters = Array(n).fill("I");
  for (const factor of factors.split("*")) {
    const qubit = Number(factor.slice(1));
    if (qubit >= n) throw new Refusal(8);
    letters[qubit] = factor[0];
  }
  return letters.join("");
}

/** Runs steps in place, and says by what the first of them was refused. */
function ran(state, steps) {
  const answers = state.run(steps);
  const refused = answers.find(([number]) => number !== 0);
  const [, outcome, determined] = answers[answers.length - 1];
  return { refusal: refused?.[0] ?? 0, outcome, determined: determined === 1, told: steps[0][0] === MEASURE };
}

const KINDS = {
  job: (state, { step }) => ran(state, [step]),
  pair: (state, { name, a, b }) => ({ ...ran(state, PAIRS[name](a, b)), told: false }),
  observe: (state, { pauli, qubit, bit }) => ({ ...state.observe(pauli, qubit, bit), told: true }),
  product: (state, { factors, bit }) => ({ ...state.measureRow(rowOf(factors, state.n), bit), told: true }),
  reset(state, { pauli, qubit, bit, told }) {
    const answer = state.measureRow(rowOf(`${pauli}${qubit}`, state.n), bit);
    if (answer.outcome === 1) state.gate(qubit, FLIPS[pauli]);
    return { ...answer, told };
  },
  renew: (state, { qubit, code }) => void state.renew(qubit, code),
  add: (state, { code }) => ({ state: state.grown(code) }),
  set: (state, { record }) => ({ state: unpacked(record) }),
  reduce(state) {
    const { neighbours, codes } = state.reduced();
    return { state: new State(neighbours, codes, state.used) };
  },
};

const refused = (state, refusal) => ({ state, refusal, outcome: 0, determined: false, told: false });

/** Does a move on a copy: the state after it, its refusal (0 where it ran), and what a measurement answered. */
export function done(state, move) {
  const copy = state.copy();
  try {
    const answer = { state: copy, refusal: 0, outcome: 0, determined: false, told: false, ...KINDS[move.kind](copy, move) };
    return answer.refusal ? refused(state, answer.refusal) : answer;
  } catch (error) {
    if (!(error instanceof Refusal)) throw error;
    return refused(state, error.number);
  }
}

/** Does steps of jobs one after the other in one call: the state after them, and what each answered. */
export function doneTogether(state, jobs) {
  const copy = state.copy();
  const answers = copy.run(jobs.map(({ step }) => step)).map(([refusal, outcome, determined], k) => {
    const told = refusal === 0 && jobs[k].step[0] === MEASURE;
    return { refusal, outcome, determined: determined === 1, told };
  });
  return { state: copy, answers };
}

/** The steps of a job that do what an accepted move did, or null where a job has none. */
export function stepsOf(move, { outcome }, n) {
  if (move.kind === "job") return [move.step];
  if (move.kind === "pair") return PAIRS[move.name](move.a, move.b);
  if (move.kind === "observe") return [measure(move.pauli, move.qubit, outcome).step];
  if (move.kind === "add") return move.code === 8 ? [] : [gate(n, 8).step, gate(n, move.code).step];
  return null;
}
