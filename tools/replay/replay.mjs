// Repeats the calls that record.py wrote through the exports of sukhlent.wasm, as replay.c does.
//
//   node replay.mjs calls.json sukhlent.wasm FILE
import { readFileSync } from "node:fs";

const [table, wasm, file] = process.argv.slice(2);
const calls = JSON.parse(readFileSync(table, "utf8")).map((call) => ({ ...call, made: 0, deepest: 0 }));
const band = 32, stack = 65536;
const element = { b: 0, w: 0, 1: 1, B: 1, 2: 2, H: 2, 8: 8, W: 8 };

const compiled = await WebAssembly.compile(readFileSync(wasm));
const { exports } = await WebAssembly.instantiate(compiled, {});
const due = [...calls.map(({ name }) => `sukhlent_${name}`), "memory", "__heap_base"].sort().join(" ");
const exported = WebAssembly.Module.exports(compiled).map(({ name }) => name).sort().join(" ");
if (exported !== due || WebAssembly.Module.imports(compiled).length !== 0) throw new Error(`it exports ${exported}, or imports`);
const base = exports.__heap_base.value;
exports.memory.grow(4); // a quarter of a megabyte, for the buffers
const bytes = new Uint8Array(exports.memory.buffer);
const painted = new Uint32Array(exports.memory.buffer, 0, stack / 4);

const input = readFileSync(file);
let at = 0;
const next = (count) => input.subarray(at, (at += count));
const number = () => next(4).readUInt32LE();

// Reads a buffer to a place behind `end`, aligned for its elements alone.
function buffer(size, end) {
    const start = ((end + band + 15) & ~15) + size;
    const count = number();
    bytes.fill(0xb7, end, start);
    if (next(1)[0]) bytes.fill(next(1)[0], start, start + count);
    else bytes.set(next(count), start);
    return { start, count };
}

// Reads and makes one call, and gives whether anything differs.
function repeat(call) {
    const words = [], buffers = [];
    let end = base;
    for (const shape of call.shape) {
        if (shape === "b") words.push(next(1)[0]);
        else if (shape === "w") words.push(next(8).readBigUInt64LE());
        else {
            const { start, count } = buffer(element[shape], end);
            buffers.push(start);
            words.push(start);
            if ("BHW".includes(shape)) words.push(BigInt(count / element[shape]));
            end = start + count;
        }
    }
    end += bytes.subarray(end, end + band).fill(0xb7).length;
    const before = Buffer.from(bytes.slice(base, end));
    bytes.fill(0x5a, 0, stack);
    let wrong = exports[`sukhlent_${call.name}`](...words) !== number();
    let low = 0;
    while (low < painted.length && painted[low] === 0x5a5a5a5a) low++;
    for (const start of buffers) before.set(next(number()), start - base);
    wrong ||= Buffer.compare(bytes.subarray(base, end), before) !== 0;
    call.deepest = Math.max(call.deepest, stack - 4 * low);
    call.made++;
    return wrong;
}

let made = 0, differ = 0;
for (; at < input.length; made++) {
    const call = calls[input[at++]];
    if (repeat(call) && differ++ < 10) console.log(`call ${made} differs: ${call.name}`);
}
for (const { name, made, deepest } of calls) console.log(`${name} ${made} calls, stack ${deepest}`);
const never = calls.some(({ made }) => made === 0);
if (never) console.log("a call was never made");
console.log(`${made} calls, ${differ} differ`);
process.exitCode = differ || never ? 1 : 0;
