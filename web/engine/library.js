// The compiled library, loaded, and its calls. Each call copies what it is lent into the library's memory and back: the
// memory holds nothing between calls, and its addresses are known here alone.
import { BEFORE_STRAY } from "./refusals.js";
import { WIDE } from "./numbers.js";

/** The calls that the package makes. */
const CALLS = [
  "version", "check", "reduce", "expand", "gate", "cz", "measure", "observe", "measure_row", "renew", "complement", "run",
  "image", "cut", "amplitude", "expectation", "product", "equivalent_records", "generate", "read_strings", "write_strings",
  "read_record", "write_record", "save", "return", "forget",
];

const FILE = "../sukhlent.wasm";

let library = null;

/** The bytes of the file beside the package, or of an address or a path. */
async function bytesOf(source) {
  const address = source ?? new URL(FILE, import.meta.url);
  const file = typeof process === "object" && (address.protocol === "file:" || !/^[a-z]+:/.test(String(address)));
  if (file) return (await import("node:fs/promises")).readFile(address);
  const answer = await fetch(address);
  if (!answer.ok) throw new Error(`${address}: ${answer.status} ${answer.statusText}. tools/bench-page makes sukhlent.wasm`);
  return answer.arrayBuffer();
}

/**
 * Loads the library, once, before anything else: from the file beside the package, or from an address, its bytes, or a
 * compiled module.
 */
export async function load(source) {
  const given = source instanceof WebAssembly.Module || ArrayBuffer.isView(source) || source instanceof ArrayBuffer;
  const made = await WebAssembly.instantiate(given ? source : await bytesOf(source), {});
  const { exports } = made.instance ?? made;
  const missing = CALLS.filter((name) => typeof exports[`sukhlent_${name}`] !== "function");
  if (missing.length) throw new Error(`the library has no sukhlent_${missing[0]}: it is of another version than the package`);
  library = exports;
}

function loaded() {
  if (library === null) throw new Error("the library is not loaded: await load() first");
  return library;
}

/** The version of the library that was loaded. */
export function version() {
  const number = loaded().sukhlent_version();
  return `${Math.floor(number / 10000)}.${Math.floor(number / 100) % 100}.${number % 100}`;
}

/** One number that a call writes: passes as its address alone. */
export class Cell {
  constructor(kind, value) {
    this.held = new kind(1);
    if (value !== undefined) this.held[0] = value;
  }

  get value() {
    return this.held[0];
  }
}

export const wordCell = (value = 0n) => new Cell(BigUint64Array, value);
export const octetCell = () => new Cell(Uint8Array);
export const floatCell = () => new Cell(Float64Array);

const bufferOf = (given) => (given instanceof Cell ? given.held : ArrayBuffer.isView(given) ? given : null);
const aligned = (at) => (at + 15) & ~15;
const bytes = (buffer) => new Uint8Array(buffer.buffer, buffer.byteOffset, buffer.byteLength);

/** The lent buffers, each with its place: one behind the other from the end of the library's own memory. */
function laidOut(given) {
  const lent = [];
  let at = aligned(loaded().__heap_base.value);
  for (const argument of given) {
    const buffer = bufferOf(argument);
    if (buffer !== null) {
      lent.push({ bytes: bytes(buffer), place: at });
      at = aligned(at + buffer.byteLength);
    }
  }
  const short = at - library.memory.buffer.byteLength;
  if (short > 0) library.memory.grow(Math.ceil(short / 65536));
  return lent;
}

/** What passes: a buffer as its place and its length, a cell as its place, a number as it is. */
function passed(given, lent) {
  const words = [];
  let next = 0;
  for (const argument of given) {
    if (argument instanceof Cell) words.push(lent[next++].place);
    else if (ArrayBuffer.isView(argument)) words.push(lent[next++].place, BigInt(argument.length));
    else words.push(argument === WIDE ? 0n : argument);
  }
  return words;
}

/**
 * Calls sukhlent_NAME and answers its number. A word of 64 bits is a BigInt, a byte a number. Where a word has a bit that
 * no word has, it has one at or above n: the answer is 5, or a number that is checked before it.
 */
export function call(name, ...given) {
  const lent = laidOut(given);
  const memory = new Uint8Array(library.memory.buffer);
  for (const { bytes: own, place } of lent) memory.set(own, place);
  const number = library[`sukhlent_${name}`](...passed(given, lent));
  if (given.some((argument) => argument.wide) && !BEFORE_STRAY.has(number)) return 5;
  if (number === 0) for (const { bytes: own, place } of lent) own.set(memory.subarray(place, place + own.length));
  return number;
}
