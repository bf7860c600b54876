// Moves as short texts, for links, and back: H.0, CX.0.1, MZ.3.1 and so on.
import { NAMES, OPS } from "../engine/index.js";
import * as moves from "./moves.js";
import { PAIRS } from "./pairs.js";

/** Whether the fields of a step are as its operation has them. */
const PLAIN = {
  gate: (b, value) => b === 0 && value < 24,
  cz: (b, value) => value === 0,
  measure: (b, value) => b === 0 && value < 6,
  complement: (b, value) => b === 0 && value === 0,
  pivot: (b, value) => value === 0,
};

/** A step of a job: by name where its fields are plain, else field by field. */
function stepWritten([op, a, b, value]) {
  const name = OPS[op];
  if (!PLAIN[name](b, value)) return [name, a, b, value].join(".");
  if (name === "gate") return `${NAMES[value]}.${a}`;
  if (name === "measure") return `M${"XYZ"[value >> 1]}.${a}.${value & 1}`;
  return { cz: `CZ.${a}.${b}`, complement: `LC.${a}`, pivot: `PIVOT.${a}.${b}` }[name];
}

const WRITTEN = {
  job: ({ step }) => stepWritten(step),
  pair: ({ name, a, b }) => `${name}.${a}.${b}`,
  observe: ({ pauli, qubit, bit }) => `LOT${pauli}.${qubit}.${bit}`,
  product: ({ factors, bit }) => `MPP.${factors}.${bit}`,
  reset: ({ pauli, qubit, bit, told }) => `${told ? "M" : ""}R${pauli}.${qubit}.${bit}`,
  renew: ({ qubit, code }) => `NEW.${qubit}.${code}`,
  add: ({ code }) => `ADD.${code}`,
  set: ({ record }) => `SET.${record}`,
  reduce: () => "REDUCE",
};

export const written = (move) => WRITTEN[move.kind](move);

const pairNames = Object.keys(PAIRS).join("|");
const step = (op, a, b, value) => moves.job(OPS.indexOf(op), +a, +b, +value);

/** A pattern of a text and the move that it stands for. */
const PATTERNS = [
  [/^(gate|cz|measure|complement|pivot)\.(\d{1,3})\.(\d{1,3})\.(\d{1,3})$/, step],
  [/^M([XYZ])\.(\d{1,3})\.([01])$/, (pauli, qubit, bit) => moves.measure(pauli, +qubit, +bit)],
  [/^LOT([XYZ])\.(\d{1,3})\.([01])$/, (pauli, qubit, bit) => moves.observe(pauli, +qubit, +bit)],
  [/^MPP\.([XYZ]\d{1,2}(?:\*[XYZ]\d{1,2})*)\.([01])$/, (factors, bit) => moves.product(factors, +bit)],
  [/^(M?)R([XYZ])\.(\d{1,3})\.([01])$/, (told, pauli, qubit, bit) => moves.reset(pauli, +qubit, +bit, told === "M")],
  [/^NEW\.(\d{1,3})\.(\d{1,2})$/, (qubit, code) => moves.renew(+qubit, +code)],
  [/^ADD\.(\d{1,2})$/, (code) => moves.add(+code)],
  [/^SET\.(.*)$/, (record) => moves.set(record)],
  [/^REDUCE$/, () => moves.reduce()],
  [/^LC\.(\d{1,3})$/, (vertex) => moves.complement(+vertex)],
  [/^PIVOT\.(\d{1,3})\.(\d{1,3})$/, (a, b) => moves.job(moves.PIVOT, +a, +b, 0)],
  [new RegExp(`^(${pairNames})\\.(\\d{1,3})\\.(\\d{1,3})$`), (name, a, b) => moves.pair(name, +a, +b)],
  [new RegExp(`^(${NAMES.join("|")})\\.(\\d{1,3})$`), (name, qubit) => moves.gate(+qubit, NAMES.indexOf(name))],
];

/** The move of a text; an Error where it is none. */
export function unwritten(text) {
  for (const [pattern, made] of PATTERNS) {
    const found = pattern.exec(text);
    if (found) return made(...found.slice(1));
  }
  throw new Error(`the link has a move that is none: ${text.slice(0, 40)}`);
}
