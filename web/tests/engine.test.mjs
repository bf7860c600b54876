// The wrapper in node, against the proved programs and the header. Needs target/web (tools/bench-page --build), target/bin.
import assert from "node:assert/strict";
import { readFileSync } from "node:fs";
import { test } from "node:test";
import * as sukhlent from "../../target/web/sukhlent.mjs";
import { ROOT, program, source } from "./places.mjs";

const { GeneratorList, NAMES, Refusal, SYMBOLS, State, Store, TEXTS } = sukhlent;
const { code, generate, images, jobText, load, parseJob, readState, version } = sukhlent;

/** The number by which a call is refused. */
function number(call) {
  try {
    call();
  } catch (error) {
    if (error instanceof Refusal) return error.number;
    throw error;
  }
  return 0;
}

const ring = (n) => State.graph(n, Array.from({ length: n }, (_, q) => [q, (q + 1) % n]));

/** A state after the steps of a job that is drawn from a seed; refused steps change nothing. */
function drawn(n, seed, count = 3 * n) {
  const state = State.zeros(n);
  state.run(parseJob(generate(n, count, seed)).steps.filter(([op]) => op < 2));
  return state;
}

test("nothing works before the library is loaded", () => {
  assert.throws(() => State.zeros(1), /await load\(\) first/);
});

test("the library is loaded from its bytes, a module, an address and a path", async () => {
  const file = `${ROOT}target/web/sukhlent.wasm`;
  const bytes = readFileSync(file);
  for (const given of [bytes, await WebAssembly.compile(bytes), new URL(`file://${file}`), file]) await load(given);
  const empty = new Uint8Array([0, 97, 115, 109, 1, 0, 0, 0]);
  await assert.rejects(load(empty), /no sukhlent_version: it is of another version/);
});

test("the library imports nothing", async () => {
  const module = await WebAssembly.compile(readFileSync(`${ROOT}target/web/sukhlent.wasm`));
  assert.deepEqual(WebAssembly.Module.imports(module), []);
});

test("the version and the texts of refusals are those of the header", async () => {
  await load();
  const header = readFileSync(`${ROOT}include/sukhlent.h`, "utf8");
  assert.equal(version(), /VERSION_TEXT "(.*)"/.exec(header)[1]);
  const defined = [...header.matchAll(/#define SUKHLENT_(\w+) (\d+)\n/g)];
  const numbers = new Map(defined.map(([, name, value]) => [name, Number(value)]));
  const said = [...header.matchAll(/case SUKHLENT_(\w+): return "(.*?)";/g)].filter(([, name]) => name !== "ACCEPTED");
  const listed = said.map(([, name, text]) => [numbers.get(name), text]);
  assert.deepEqual([...TEXTS], listed);
  for (const [, name, text] of said) {
    const refusal = new Refusal(numbers.get(name));
    assert.deepEqual([refusal.refusal, refusal.text], [name, text]);
  }
});

test("names and symbols of codes are those of the Python package", () => {
  const python = readFileSync(`${ROOT}python/sukhlent/codes.py`, "utf8");
  const tuple = (name) => new RegExp(`${name}: tuple.*?= \\(([^)]*)\\)`, "s").exec(python)[1];
  const quoted = (name) => [...tuple(name).matchAll(/"(.*?)"/g)].map(([, text]) => text);
  assert.deepEqual([...NAMES], quoted("NAMES"));
  assert.deepEqual([...SYMBOLS], quoted("SYMBOLS"));
  assert.deepEqual([code("h"), code("√X"), code("S†"), code(4)], [8, 13, 6, 4]);
  assert.deepEqual([images(8), images(6)], [["+Z", "+X"], ["-Y", "+Z"]]);
  assert.throws(() => code("T"), /no local Clifford is called 'T'/);
});

test("a Bell pair, its measurement, and the outcome that it forbids", () => {
  const bell = State.zeros(2);
  bell.h(0);
  bell.cx(0, 1);
  assert.deepEqual(bell.generators().strings(), ["+XX", "+ZZ"]);
  assert.equal(String(bell), program("reduce", bell.generators().text()));
  assert.deepEqual(bell.measure("Z", 0, 1), { outcome: 1, determined: false });
  const before = String(bell);
  assert.equal(number(() => bell.measure("Z", 1, 0)), 14);
  assert.equal(String(bell), before);
  assert.deepEqual(bell.measure("Z", 1, 1), { outcome: 1, determined: true });
  assert.equal(number(() => bell.h(0)), 16);
});

test("refusals, each by its number, and nothing changes", () => {
  const state = ring(5);
  const before = String(state);
  const cases = [
    [8, () => state.h(5)], [8, () => state.h(-1)], [8, () => state.cz(1, 1)], [8, () => state.cx(0, 0)],
    [8, () => state.cz(0, 2n ** 64n)], [6, () => state.gate(0, 24)], [6, () => state.gate(0, 256)],
    [6, () => state.measure("T", 0, 0)], [6, () => state.measure("Z", 0, 2)], [5, () => state.cut([5])],
    [5, () => state.cut([64])], [5, () => state.amplitude(32)], [5, () => state.amplitude(2n ** 64n)],
    [1, () => state.expectation("XX")], [1, () => state.expectation("+XXTXX")],
    [2, () => State.zeros(0)], [2, () => State.zeros(65)], [2, () => state.compare(ring(6))],
    [7, () => new State([2n, 0n], [0, 0])], [4, () => new State([2n, 1n], [0, 0, 0])],
    [5, () => new State([2n ** 64n], [0])],
    [7, () => new State([0n], [12], 1n)], [6, () => new State([0n], [24])], [5, () => State.graph(2, [[0, 2]])],
    [9, () => State.fromStrings("+XI", "+ZI")], [10, () => State.fromStrings("+XX", "-XX")],
    [1, () => State.fromStrings("+X", "+ZZ")], [15, () => generate(2, 4097, 1)], [6, () => generate(2, 1, 0)],
    [20, () => state.renew(0)], [6, () => state.renew(0, 12)], [6, () => state.renew(0, "Z")], [8, () => state.renew(7)],
    [8, () => state.renew(2n ** 64n)], [6, () => state.observe("T", 0, 0)], [6, () => state.observe("Z", 0, 2)],
    [8, () => state.observe("Z", 5, 0)],
    [13, () => { if (ring(4).compare(State.graph(4, [[0, 1], [1, 2], [2, 3]])) === null) throw new Refusal(13); }],
  ];
  for (const [due, call] of cases) assert.equal(number(call), due, String(call));
  assert.equal(String(state), before);
  assert.throws(() => state.h(0.5), TypeError);
  assert.throws(() => state.h("0"), TypeError);
  assert.throws(() => State.zeros("3"), TypeError);
  assert.throws(() => State.graph(2.5, []), TypeError);
  assert.throws(() => generate(2, 1, 2n ** 64n), RangeError);
});

test("jobs print what the program prints, byte for byte", () => {
  for (const [n, count, seed] of [[1, 9, 3], [2, 40, 5], [5, 200, 7], [20, 900, 11], [64, 4096, 1]]) {
    const text = generate(n, count, seed);
    const { n: qubits, steps } = parseJob(text);
    assert.equal(jobText(qubits, steps), text);
    const state = State.zeros(qubits);
    const lines = state.run(steps).map((answer, k) => `${k} ${answer.join(" ")}\n`);
    assert.equal(`step refusal outcome determined\n${lines.join("")}${state}`, program("job", text));
  }
});

test("amplitudes are those of the program, bit for bit", () => {
  const hex = (value) => {
    const view = new DataView(new ArrayBuffer(8));
    view.setFloat64(0, value);
    return view.getBigUint64(0).toString(16).padStart(16, "0");
  };
  for (const [n, seed] of [[1, 3], [2, 5], [3, 9], [4, 17], [6, 21], [10, 33]]) {
    const state = drawn(n, seed);
    const lines = Array.from({ length: 2 ** n }, (_, y) => [y, ...Object.values(state.amplitude(y)).map(hex)].join(" "));
    assert.equal(`${["y re im p", ...lines].join("\n")}\n`, program("amplitudes", state.generators().text()));
  }
});

test("texts of every kind stand for one state, and faults say where", () => {
  const state = drawn(7, 5);
  const { steps } = parseJob("qubits\n7\nop a b value\n");
  const list = state.generators();
  const answers = program("job", jobText(7, steps)).replace(/qubit code.*/s, String(state));
  for (const text of [String(state), String(list), list.text(), answers]) {
    assert.ok(readState(text).equals(state), text);
  }
  const where = (text) => {
    try {
      return String(readState(text));
    } catch (error) {
      return error.where;
    }
  };
  assert.equal(where("sign z x\n0 0000000000000000 000000000000003\n"), "line 2, column 20: expected 16 lower-case hexadecimal digits");
  assert.equal(where("+XX\n+ZZZ\n"), "line 2 has 3 letters: expected 2, as many as lines");
  assert.equal(where("qubit code neighbours used\n0 8 0000000000000000\n"), "line 2, column 21: expected one space");
  assert.equal(where("sign z x\r\n"), "line 1, column 9: a carriage return; lines end with a newline alone, not CRLF");
  assert.throws(() => parseJob("qubits\n2\nop a b value\ngate 0 0 8"), /line 4, column 11: expected a newline/);
  assert.equal(number(() => parseJob("qubits\n65\nop a b value\n")), 2);
});

test("a comparison answers a choice that carries one state onto the other", () => {
  const next = source(77);
  for (const n of [2, 5, 9, 30]) {
    const first = drawn(n, n + 1);
    const second = first.copy();
    for (let q = 0; q < n; q++) second.gate(q, next(24));
    const { choice, complementations } = first.compare(second);
    const sent = first.copy();
    choice.forEach((gate, q) => sent.gate(q, gate));
    assert.ok(sent.equals(second));
    const graph = new State(first.reduced().neighbours, Array(n).fill(0));
    for (const vertex of complementations) graph.complement(vertex);
    assert.deepEqual(graph.neighbours, second.reduced().neighbours);
  }
  assert.equal(State.graph(4, [[0, 1], [1, 2], [2, 3]]).compare(State.graph(4, [[0, 1], [0, 2], [0, 3]])), null);
});

test("the image of a graph, a cut, products, and a complementation that keeps the state", () => {
  const star = new State([6n, 1n, 1n], [12, 4, 4]);
  assert.deepEqual(star.image(), { neighbours: [6n, 5n, 3n], signs: [0, 0, 0], complementations: [0] });
  assert.equal(number(() => new State([0n], [8]).image()), 11);
  assert.equal(number(() => new State([0n], [4]).image()), 12);
  const path = State.graph(4, [[0, 1], [1, 2], [2, 3]]);
  assert.deepEqual([path.cut([0, 1]), path.cut([0, 2]), path.cut([])], [1, 2, 0]);
  const before = path.copy();
  path.complement(1);
  assert.ok(path.equals(before) && !path.isReduced());
  const { phase, letters } = new GeneratorList([0, 0], [0n, 1n], [1n, 1n]).product(0, 1);
  assert.deepEqual([phase, letters], [1, "ZI"]);
});

test("observations and renewals as steps of a run are the single calls", () => {
  const steps = [[0, 0, 0, 8], [1, 0, 1, 0], [5, 0, 0, 5], [6, 0, 0, 2], [5, 0, 0, 0], [6, 1, 0, 8], [5, 1, 0, 4], [5, 1, 0, 4]];
  const [state, other] = [State.zeros(2), State.zeros(2)];
  const single = ([op, a, b, value]) => {
    if (op === 0) other.gate(a, value);
    else if (op === 1) other.cz(a, b);
    else if (op === 6) other.renew(a, value);
    else {
      const { outcome, determined } = other.observe("XYZ"[value >> 1], a, value & 1);
      return [0, outcome, Number(determined)];
    }
    return [0, 0, 0];
  };
  const due = steps.map((step) => {
    let answer;
    const refusal = number(() => { answer = single(step); });
    return refusal ? [refusal, 0, 0] : answer;
  });
  assert.deepEqual(state.run(steps), due);
  assert.deepEqual(due.map(([refusal]) => refusal), [0, 0, 0, 0, 0, 20, 0, 16]);
  assert.equal(String(state), String(other));
  assert.equal(number(() => state.run([[7, 0, 0, 0]])), 6);
});

test("observations ignore a bit that the state forbids, and renewal brings the place back", () => {
  const state = State.zeros(2);
  assert.deepEqual(state.observe("Z", 0, 1), { outcome: 0, determined: true });
  assert.ok(state.isUsed(0));
  assert.equal(number(() => state.observe("Z", 0, 1)), 16);
  state.renew(0, 0);
  assert.ok(!state.isUsed(0));
  assert.equal(state.expectation("XI"), 1);
  assert.equal(state.measure("X", 0).outcome, 0);
  for (const [k, photon] of ["+X", "-X", "+Y", "-Y", "+Z", "-Z"].entries()) {
    for (const named of [photon, 2 * k]) {
      state.renew(0, named);
      assert.equal(state.generators().strings()[0], `${photon}I`);
      assert.equal(number(() => state.renew(0, named)), 20);
      assert.deepEqual(state.observe(photon[1], 0, 1 - (k % 2)), { outcome: k % 2, determined: true });
    }
  }
});

test("an observation takes its bit where the state leaves the outcome open, as a measurement does", () => {
  for (const bit of [0, 1]) {
    const [seen, told] = [ring(5), ring(5)];
    assert.deepEqual(seen.observe("Y", 2, bit), { outcome: bit, determined: false });
    assert.deepEqual(told.measure("Y", 2, bit), { outcome: bit, determined: false });
    assert.equal(String(seen), String(told));
  }
});

/** All elements of a list's group, as strings. */
function elements(list) {
  return Array.from({ length: 2 ** list.n }, (_, word) => {
    const { phase, letters } = list.product(...[...Array(list.n).keys()].filter((j) => (word >> j) & 1));
    return `${"+?-?"[phase]}${letters}`;
  });
}

test("a joint measurement leaves its outcome, keeps what commutes, and uses no photon up", () => {
  const next = source(5);
  for (let k = 1; k <= 60; k++) {
    const n = 1 + next(5);
    const state = drawn(n, 100 + k);
    const row = Array.from({ length: n }, () => "IXYZ"[next(4)]).join("");
    const signed = `${"+-"[next(2)]}${row}`;
    const [before, held, bit] = [elements(state.generators()), state.expectation(signed), next(2)];
    const { outcome, determined } = state.measureRow(signed, bit);
    assert.equal(determined, held !== 0);
    assert.equal(outcome, held === 0 ? bit : held === 1 ? 0 : 1);
    assert.equal(state.expectation(signed), outcome === 0 ? 1 : -1);
    const differ = (string) => [...row].filter((letter, q) => ![letter, string[q + 1]].includes("I") && letter !== string[q + 1]);
    for (const string of before) if (differ(string).length % 2 === 0) assert.equal(state.expectation(string), 1, string);
    assert.ok(state.used === 0n && state.isReduced());
  }
  const single = State.zeros(2);
  single.measure("Z", 0, 0);
  assert.equal(number(() => single.measureRow("XX", 0)), 16);
  assert.equal(number(() => single.measureRow("IX", 2)), 6);
});

test("a store holds eight names", () => {
  const store = new Store();
  for (const name of "ABCDEFGH") store.save(name, State.zeros(2));
  assert.equal(number(() => store.save("I", State.zeros(1))), 18);
  store.save("C", ring(6));
  assert.ok(store.returnTo("C").equals(ring(6)));
  store.forget("A");
  assert.equal(number(() => store.returnTo("A")), 17);
  store.save("übung", State.zeros(3));
  assert.deepEqual(store.names(), ["übung", "B", "C", "D", "E", "F", "G", "H"]);
  assert.throws(() => store.save("ninebytes", State.zeros(1)), /at most eight bytes/);
});

test("what is read of a state is a copy", () => {
  const state = ring(3);
  const before = String(state);
  state.neighbours[0] = 0n;
  state.codes[0] = 9;
  state.generators().buffers()[0].fill(1);
  assert.equal(String(state), before);
  assert.deepEqual(Object.keys(state), []);
});

test("every public name and method has its type", () => {
  const types = readFileSync(`${ROOT}web/sukhlent.d.mts`, "utf8");
  for (const [name, held] of Object.entries(sukhlent)) {
    assert.match(types, new RegExp(`export (declare )?(const|function|class) ${name}\\b`), name);
    const methods = typeof held === "function" && held.prototype ? Object.getOwnPropertyNames(held.prototype) : [];
    for (const method of methods) assert.match(types, new RegExp(`\\b${method}\\b`), `${name}.${method}`);
  }
});
