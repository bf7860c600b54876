// Gates on two qubits, as steps of a job: local Cliffords and CZ.
import { code } from "../engine/index.js";

const TURN = { X: "H", Y: "H_YZ", Z: null };

const gate = (name, qubit) => [0, qubit, 0, code(name)];
const cz = (a, b) => [1, a, b, 0];
const turned = (letter, qubit) => (TURN[letter] ? [gate(TURN[letter], qubit)] : []);

/** The gate that applies Q at b where P at a is -1: X or Y is turned into Z and back. */
function controlled(p, q, a, b) {
  const turns = [...turned(p, a), ...turned(q, b)];
  return [...turns, cz(a, b), ...turns];
}

const cx = (a, b) => controlled("Z", "X", a, b);
const swap = (a, b) => [...cx(a, b), ...cx(b, a), ...cx(a, b)];
const iswap = (s) => (a, b) => [...swap(a, b), cz(a, b), gate(s, a), gate(s, b)];

/** name: the steps on a and b */
export const PAIRS = {
  CZ: (a, b) => [cz(a, b)],
  CX: cx,
  CY: (a, b) => controlled("Z", "Y", a, b),
  XCX: (a, b) => controlled("X", "X", a, b),
  XCY: (a, b) => controlled("X", "Y", a, b),
  XCZ: (a, b) => controlled("X", "Z", a, b),
  YCX: (a, b) => controlled("Y", "X", a, b),
  YCY: (a, b) => controlled("Y", "Y", a, b),
  YCZ: (a, b) => controlled("Y", "Z", a, b),
  SWAP: swap,
  ISWAP: iswap("S"),
  ISWAP_DAG: iswap("S_DAG"),
};
