// Generator lists: n signed Pauli rows on n qubits, and single rows.
import { call, octetCell, wordCell } from "./library.js";
import { LIST_NAMES, stringFault } from "./forms.js";
import { octets, wordOf, words } from "./numbers.js";
import { Refusal, accept } from "./refusals.js";

const LETTERS = "IXZY";

/** The letters of a row by its words. */
export const lettersOf = (z, x, n) =>
  Array.from({ length: n }, (_, q) => LETTERS[Number(((z >> BigInt(q)) & 1n) * 2n + ((x >> BigInt(q)) & 1n))]).join("");

/** Sign (1 for minus), z word and x word of a row such as "-XZI", leftmost letter qubit 0; a plus may be left out. */
export function rowWords(row, n) {
  const letters = /^[+-]/.test(row) ? row.slice(1) : row;
  if (letters.length !== n || /[^IXYZ]/.test(letters)) {
    throw new Refusal(1, `the row ${row || "''"} is not a sign and ${n} letters I, X, Y or Z`);
  }
  const numbers = Array.from(letters, (letter) => LETTERS.indexOf(letter));
  const [z, x] = [1, 0].map((bit) => wordOf([...numbers.keys()].filter((q) => (numbers[q] >> bit) & 1)));
  return { sign: row.startsWith("-") ? 1 : 0, z, x };
}

/** Signs (1 for minus), z words and x words; bit q of a word belongs to qubit q. */
export class GeneratorList {
  constructor(signs, z, x) {
    [this.signs, this.z, this.x] = [signs, z, x].map((values) => Object.freeze(Array.from(values)));
    Object.freeze(this);
  }

  /** The list of strings such as "+XX", "-ZZ", or of one text of such lines. */
  static fromStrings(...lines) {
    const text = lines.length === 1 && lines[0].includes("\n") ? lines[0] : lines.map((line) => `${line}\n`).join("");
    const n = text.split("\n").length - 1;
    const [signs, z, x] = [new Uint8Array(n), new BigUint64Array(n), new BigUint64Array(n)];
    const number = call("read_strings", new TextEncoder().encode(text), signs, z, x);
    if (number === 1) throw new Refusal(1, stringFault(text) ?? "");
    accept(number);
    return new GeneratorList(signs, z, x);
  }

  /** The number of generators and of qubits. */
  get n() {
    return this.signs.length;
  }

  /** What passes to a call. */
  buffers() {
    return [octets(this.signs), words(this.z), words(this.x)];
  }

  /** Throws a Refusal where this is no generator list: wrong words, not commuting, or dependent. */
  check() {
    accept(call("check", BigInt(this.n), ...this.buffers()));
  }

  /** The product of rows in index order: the power of i in front of it, its letters and its words. */
  product(...rows) {
    const [z, x, phase] = [wordCell(), wordCell(), octetCell()];
    accept(call("product", BigInt(this.n), ...this.buffers(), wordOf(rows), z, x, phase));
    return { phase: phase.value, letters: lettersOf(z.value, x.value, this.n), z: z.value, x: x.value };
  }

  /** The generators as strings, one each. */
  strings() {
    return this.toString().split("\n").slice(0, -1);
  }

  /** The text of Pauli strings. */
  toString() {
    const text = new Uint8Array(this.n * (this.n + 2));
    accept(call("write_strings", BigInt(this.n), ...this.buffers(), text));
    return new TextDecoder().decode(text);
  }

  /** The text that the program reduce reads. */
  text() {
    const hex = (word) => word.toString(16).padStart(16, "0");
    return `${LIST_NAMES}\n${this.signs.map((sign, j) => `${sign} ${hex(this.z[j])} ${hex(this.x[j])}\n`).join("")}`;
  }
}
