// A Bell pair through sukhlent.wasm: how a call looks from JavaScript.
//
//   tools/cross wasm32 && node examples/wasm/bell.mjs target/cross/wasm32/sukhlent.wasm
//
// A pointer is a number; every 64-bit argument (n, words, qubits, and each length) is a BigInt, an 8-bit one a number, and
// the answer is a number. The memory is the module's own: what lies below __heap_base is its stack and constants.
import { readFileSync } from "node:fs";

const { exports } = (await WebAssembly.instantiate(readFileSync(process.argv[2]), {})).instance;
const n = 2;
const base = (exports.__heap_base.value + 15) & ~15;
if (exports.memory.buffer.byteLength < base + 4096) exports.memory.grow(1); // makes a new buffer: views come after it
const words = new BigUint64Array(exports.memory.buffer, base, n + 2); // neighbours, used, rank
const bytes = new Uint8Array(exports.memory.buffer, base + 1024, n + 2); // codes, answer, determined
const at = (view, k) => view.byteOffset + k * view.BYTES_PER_ELEMENT;
const record = [BigInt(n), at(words, 0), BigInt(n), at(bytes, 0), BigInt(n)];
const accepted = (refusal) => {
    if (refusal !== 0) throw new Error(`refused by ${refusal}`);
};

words.fill(0n);
bytes.fill(8, 0, n); // every qubit in +Z
accepted(exports.sukhlent_gate(...record, 0n, 0n, 8)); // H at 0
accepted(exports.sukhlent_gate(...record, 0n, 1n, 8)); // CNOT: H at 1, CZ, H at 1
accepted(exports.sukhlent_cz(...record, 0n, 0n, 1n));
accepted(exports.sukhlent_gate(...record, 0n, 1n, 8));
accepted(exports.sukhlent_cut(...record, 0n, 1n, at(words, n + 1)));
console.log(`entanglement ${words[n + 1]}, neighbours ${words.slice(0, n).join(" ")}, codes ${bytes.slice(0, n).join(" ")}`);
const measured = (qubit, outcome) =>
    exports.sukhlent_measure(...record, at(words, n), 3, qubit, outcome, at(bytes, n), at(bytes, n + 1));
accepted(measured(0n, 1));
console.log(`Z at 0: ${bytes[n]}, determined ${bytes[n + 1]}`);
console.log(`Z at 1, asked with 0: refused by ${measured(1n, 0)}`);
accepted(measured(1n, 1));
console.log(`Z at 1: ${bytes[n]}, determined ${bytes[n + 1]}, used ${words[n]}`);
