// A stabilizer state held as a record: a graph with one local Clifford per vertex, and a word of used qubits.
import { code } from "./codes.js";
import { recordFault } from "./forms.js";
import { call, floatCell, octetCell, wordCell } from "./library.js";
import { GeneratorList, rowWords } from "./lists.js";
import { bits, fairBit, halves, octet, octets, place, placesOf, wordOf, words } from "./numbers.js";
import { Refusal, accept } from "./refusals.js";

const LIST_PLACES = 96;
const RECORD_PLACES = 1627;
const PHOTONS = ["+X", "-X", "+Y", "-Y", "+Z", "-Z"];

/** The number of a Pauli by its letter, or the number itself; 0, which every call refuses, of another letter. */
const pauliNumber = (pauli) => (typeof pauli === "string" ? "XYZ".indexOf(pauli.toUpperCase()) + 1 : octet(pauli));

/** The code of a photon by its state, or the code itself; one that every call refuses of another text. */
const photonCode = (photon) => octet(typeof photon === "string" ? 2 * PHOTONS.indexOf(photon) : photon);

/** The number of qubits; refused by 2 where it is not 1 to 64. */
function count(n) {
  const given = place(n);
  if (given < 1n || given > 64n) throw new Refusal(2);
  return Number(given);
}

/** The neighbour words of n vertices with these edges. */
function neighbourWords(n, edges) {
  const found = Array(n).fill(0n);
  for (const [a, b] of edges) {
    if (!(a >= 0 && a < n && b >= 0 && b < n)) throw new Refusal(5);
    found[a] |= 1n << BigInt(b);
    found[b] |= 1n << BigInt(a);
  }
  return found;
}

/** A state on 1 to 64 qubits. Calls change it in place; a refused call throws a Refusal and changes nothing. */
export class State {
  #neighbours;
  #codes;
  #used;

  constructor(neighbours, codes, used = 0n) {
    if (neighbours instanceof State) {
      [this.#neighbours, this.#codes] = [neighbours.#neighbours.slice(), neighbours.#codes.slice()];
      this.#used = neighbours.#used;
    } else {
      [this.#neighbours, this.#codes, this.#used] = [words(neighbours), octets(codes), bits(used)];
      this.generators(); // judges the record
    }
  }

  // ---- making one

  /** Every qubit in +Z: no edge, code 8 everywhere. */
  static zeros(n) {
    return new State(Array(count(n)).fill(0n), Array(count(n)).fill(8));
  }

  /** The graph state of these edges, then one gate per vertex where gates are given, by name or code. */
  static graph(n, edges, gates) {
    const neighbours = neighbourWords(count(n), edges);
    return new State(neighbours, gates === undefined ? neighbours.map(() => 0) : Array.from(gates, code));
  }

  /** The reduced record of a list: lists of one group give equal records. */
  static fromGenerators(list) {
    const [neighbours, codes, used] = [new BigUint64Array(list.n), new Uint8Array(list.n), wordCell()];
    accept(call("reduce", BigInt(list.n), ...list.buffers(), neighbours, codes, used));
    return new State(neighbours, codes, used.value);
  }

  /** The state of generators such as "+XX", "-ZZ", or of one text of such lines. */
  static fromStrings(...lines) {
    return State.fromGenerators(GeneratorList.fromStrings(...lines));
  }

  /** The state of a record that a program printed. */
  static fromText(text) {
    const fault = recordFault(text);
    if (fault) throw new Refusal(1, fault);
    const [n, used] = [wordCell(), wordCell()];
    const [neighbours, codes] = [new BigUint64Array(64), new Uint8Array(64)];
    accept(call("read_record", new TextEncoder().encode(text), n, neighbours, codes, used));
    const count = Number(n.value);
    return new State(neighbours.slice(0, count), codes.slice(0, count), used.value);
  }

  /** The same record, apart. */
  copy() {
    return new State(this);
  }

  // ---- reading it

  /** The number of qubits. */
  get n() {
    return this.#codes.length;
  }

  /** The neighbour word of each vertex: bit q is 1 where q is a neighbour. */
  get neighbours() {
    return Array.from(this.#neighbours);
  }

  /** The code of each vertex. */
  get codes() {
    return Array.from(this.#codes);
  }

  /** The word of used qubits: those that were measured and not renewed. */
  get used() {
    return this.#used;
  }

  /** Whether a qubit is used. */
  isUsed(qubit) {
    return ((this.#used >> BigInt(qubit)) & 1n) === 1n;
  }

  /** The neighbours of a vertex, rising. */
  neighboursOf(vertex) {
    return placesOf(this.#neighbours[vertex] ?? 0n);
  }

  /** The edges of the graph, each once. */
  edges() {
    return this.codes.flatMap((_, a) => this.neighboursOf(a).filter((b) => b > a).map((b) => [a, b]));
  }

  #record() {
    return [BigInt(this.n), this.#neighbours, this.#codes];
  }

  /** The record expanded: its n generators, in order. */
  generators() {
    const { n } = this;
    const [signs, z, x] = [new Uint8Array(n), new BigUint64Array(n), new BigUint64Array(n)];
    accept(call("expand", ...this.#record(), this.#used, signs, z, x));
    return new GeneratorList(signs, z, x);
  }

  /** The reduced record of the state, with no qubit used. Equal states have equal reduced records. */
  reduced() {
    return State.fromGenerators(this.generators());
  }

  /** Whether the record is the reduced one. */
  isReduced() {
    const reduced = this.reduced();
    return String(reduced.neighbours) === String(this.neighbours) && String(reduced.codes) === String(this.codes);
  }

  /** Whether two records stand for one state. */
  equals(other) {
    const [mine, others] = [this.reduced(), other.reduced()];
    return String(mine) === String(others);
  }

  /** The entanglement between these qubits and the others: the rank of the edges between them. */
  cut(side) {
    const rank = wordCell();
    accept(call("cut", ...this.#record(), this.#used, wordOf(side), rank));
    return Number(rank.value);
  }

  /** The amplitude at a word, bit q for qubit q, over that at the smallest word whose amplitude is not 0. */
  amplitude(word) {
    const [re, im, p] = [floatCell(), floatCell(), floatCell()];
    accept(call("amplitude", ...this.#record(), this.#used, bits(word), re, im, p));
    return { re: re.value, im: im.value, p: p.value };
  }

  /** The expectation value, 1, -1 or 0, of a Pauli row such as "+XZI". */
  expectation(row) {
    const { sign, z, x } = rowWords(row, this.n);
    const value = octetCell();
    accept(call("expectation", ...this.#record(), this.#used, z, x, value));
    return value.value === 2 ? 0 : value.value === sign ? 1 : -1;
  }

  /** The graph to which the codes send the graph; refused by 11 or 12 where that is no graph's group. */
  image() {
    const { n } = this;
    const [neighbours, signs] = [new BigUint64Array(n), new Uint8Array(n)];
    const [list, count] = [new Uint8Array(LIST_PLACES), wordCell()];
    accept(call("image", ...this.#record(), neighbours, signs, list, count));
    const complementations = Array.from(list.slice(0, Number(count.value)));
    return { neighbours: Array.from(neighbours), signs: Array.from(signs), complementations };
  }

  /**
   * The least choice of local Cliffords that carries this state onto the other, parts of any size, and the vertices at
   * which the first reduced graph is complemented to become the second; null where there is none.
   */
  compare(other) {
    const [choice, list, count] = [new Uint8Array(this.n), new Uint8Array(LIST_PLACES), wordCell()];
    const number = call("equivalent_records", ...this.#record(), ...other.#record(), choice, list, count);
    if (number === 13) return null;
    accept(number);
    return { choice: Array.from(choice), complementations: Array.from(list.slice(0, Number(count.value))) };
  }

  // ---- changing it

  /** Applies a local Clifford, by name or code, and leaves the reduced record. */
  gate(qubit, gate) {
    accept(call("gate", ...this.#record(), this.#used, place(qubit), octet(code(gate))));
  }

  h(qubit) {
    this.gate(qubit, "H");
  }

  s(qubit) {
    this.gate(qubit, "S");
  }

  x(qubit) {
    this.gate(qubit, "X");
  }

  y(qubit) {
    this.gate(qubit, "Y");
  }

  z(qubit) {
    this.gate(qubit, "Z");
  }

  /** CZ on two qubits, and the reduced record. */
  cz(a, b) {
    accept(call("cz", ...this.#record(), this.#used, place(a), place(b)));
  }

  /** CNOT: a Hadamard, CZ and a Hadamard at the target. Refused as a whole, before the first gate. */
  cx(control, target) {
    this.copy().cz(control, target); // names both qubits: where it is accepted, so is what follows
    this.h(target);
    this.cz(control, target);
    this.h(target);
  }

  /**
   * Measures X, Y or Z, by letter or as 1, 2 or 3; the qubit is used afterwards. An outcome that the state forbids is
   * refused by 14; without one the outcome is the state's, or a fair bit.
   */
  measure(pauli, qubit, outcome) {
    return outcome === undefined ? this.observe(pauli, qubit, fairBit()) : this.#measured("measure", pauli, qubit, outcome);
  }

  /** Measures with a bit by lot, which plays no part where the state determines the outcome. */
  observe(pauli, qubit, bit) {
    return this.#measured("observe", pauli, qubit, bit);
  }

  #measured(name, pauli, qubit, bit) {
    const [used, answer, determined] = [wordCell(this.#used), octetCell(), octetCell()];
    const asked = [pauliNumber(pauli), place(qubit), octet(bit)];
    accept(call(name, ...this.#record(), used, ...asked, answer, determined));
    this.#used = used.value;
    return { outcome: answer.value, determined: determined.value === 1 };
  }

  /** Measures a Pauli row with a bit by lot. No qubit is used by it. */
  measureRow(row, bit = fairBit()) {
    const { sign, z, x } = rowWords(row, this.n);
    const [answer, determined] = [octetCell(), octetCell()];
    const lot = bit === 0 || bit === 1 ? bit ^ sign : bit;
    accept(call("measure_row", ...this.#record(), this.#used, z, x, octet(lot), answer, determined));
    return { outcome: answer.value ^ sign, determined: determined.value === 1 };
  }

  /** A new photon at a used place, in the state +X, -X, +Y, -Y, +Z or -Z, by name or by its code 0, 2, 4, 6, 8 or 10. */
  renew(qubit, photon = "+Z") {
    const used = wordCell(this.#used);
    accept(call("renew", ...this.#record(), used, place(qubit), photonCode(photon)));
    this.#used = used.value;
  }

  /** Complements the graph at a vertex and rewrites the codes: the same state, not reduced. */
  complement(vertex) {
    accept(call("complement", ...this.#record(), this.#used, place(vertex)));
  }

  /**
   * Runs at most 4,096 steps in one call: each is an operation (0 gate, 1 cz, 2 measure, 3 complement, 4 pivot,
   * 5 observe, 6 renew), two qubits and a value, as in a job; an observation's value has its bit where a measurement's has
   * the outcome, and a renewal's is the photon's code. Answers refusal, outcome and determined of each; a refused step
   * changes nothing.
   */
  run(steps) {
    const ops = octets(steps.map(([op]) => op));
    const fields = [1, 2, 3].map((k) => halves(steps.map((step) => step[k])));
    const answers = [0, 1, 2].map(() => new Uint8Array(steps.length));
    const used = wordCell(this.#used);
    accept(call("run", ...this.#record(), used, ops, ...fields, ...answers));
    this.#used = used.value;
    return steps.map((_, k) => answers.map((values) => values[k]));
  }

  /** The same state with a qubit more, unentangled, in the state of its code. */
  grown(gate = 8) {
    if (this.n === 64) throw new Refusal(2);
    return new State([...this.#neighbours, 0n], [...this.#codes, code(gate)], this.#used);
  }

  /** The record as programs print it. */
  toString() {
    const [text, length] = [new Uint8Array(RECORD_PLACES), wordCell()];
    accept(call("write_record", ...this.#record(), this.#used, text, length));
    return new TextDecoder().decode(text.slice(0, Number(length.value)));
  }
}
