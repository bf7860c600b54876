// The page's modules that need no browser. Needs target/web (tools/bench-page --build) and target/bin.
import assert from "node:assert/strict";
import { readFileSync, readdirSync } from "node:fs";
import { before, test } from "node:test";
import { GeneratorList, NAMES, Refusal, State, Store, generate, load } from "../../target/web/sukhlent.mjs";
import { EXAMPLES, FAMILIES } from "../../target/web/page/examples.js";
import { drawing, jobOfSession, jobOfState } from "../../target/web/page/exports.js";
import { linkOf, opened, stateLink } from "../../target/web/page/link.js";
import { loaded } from "../../target/web/page/loading.js";
import * as moves from "../../target/web/page/moves.js";
import { packed, unpacked } from "../../target/web/page/packed.js";
import { PAIRS } from "../../target/web/page/pairs.js";
import { pathOf } from "../../target/web/page/lines.js";
import { circle, free, grid, springs, usual } from "../../target/web/page/places.js";
import { Session } from "../../target/web/page/session.js";
import { answered, said } from "../../target/web/page/words.js";
import { unwritten, written } from "../../target/web/page/written.js";
import { ROOT, program, source } from "./places.mjs";

before(() => load());

const strings = (state) => state.generators().strings().join(" ");

/** A session of every kind of move, some of them refused. */
function mixed(n, seed, count) {
  const next = source(seed);
  const qubit = () => next(n + 1);
  const pauli = () => "XYZ"[next(3)];
  const kinds = [
    () => moves.gate(qubit(), next(24)),
    () => moves.pair(Object.keys(PAIRS)[next(12)], qubit(), qubit()),
    () => moves.measure(pauli(), qubit(), next(2)),
    () => moves.complement(qubit()),
    () => moves.job(4, qubit(), qubit(), 0),
    () => moves.observe(pauli(), qubit(), next(2)),
    () => moves.product(`X${next(n)}*Z${next(n)}`.replace(/X(\d+)\*Z\1$/, "Y$1"), next(2)),
    () => moves.reset(pauli(), qubit(), next(2), next(2) === 1),
    () => moves.renew(qubit(), 2 * next(6)),
    () => moves.add(2 * next(6)),
    () => moves.reduce(),
    () => moves.job(next(5), next(99), next(99), next(99)),
    () => moves.set(packed(State.graph(n, [[0, 1]]))),
  ];
  return Array.from({ length: count }, () => kinds[next(kinds.length)]());
}

test("a session goes back and forth, and keeps what refused steps leave", () => {
  const steps = mixed(5, 3, 300);
  const session = new Session(State.zeros(5), steps);
  const states = [String(session.state)];
  for (let k = 1; k <= steps.length; k++) {
    session.goTo(k);
    states.push(String(session.state));
    if (session.answers[k - 1].refusal) assert.equal(states[k], states[k - 1]);
  }
  assert.ok(session.answers.some(({ refusal }) => refusal) && session.answers.some(({ told }) => told));
  const next = source(9);
  for (let k = 0; k < 50; k++) {
    const at = next(steps.length + 1);
    session.goTo(at);
    assert.equal(String(session.state), states[at]);
    assert.equal(String(new Session(State.zeros(5), steps, at).state), states[at]);
  }
  session.goTo(9999);
  assert.equal(session.at, 300);
});

test("a refused move is not kept, and what a move drops can be brought back", () => {
  const session = new Session(State.zeros(2), [moves.gate(0, 8), moves.pair("CX", 0, 1)], 1);
  assert.equal(session.do(moves.gate(2, 8)).refusal, 8);
  assert.deepEqual([session.moves.length, session.at], [2, 1]);
  assert.equal(session.do(moves.pair("CX", 0, 0)).refusal, 8);
  assert.equal(strings(session.state), "+XI +IZ");
  session.do(moves.gate(1, 8));
  assert.deepEqual([session.moves.length, session.canRedo], [2, false]);
  session.bringBack();
  session.goTo(2);
  assert.equal(strings(session.state), "+XX +ZZ");
});

test("a long job ends as the program says, and each of its steps answers as the program says", () => {
  const text = generate(64, 4096, 1);
  const { start, moves: steps } = loaded(text);
  const session = new Session(start, steps, 4096);
  const answers = session.answers.map(({ refusal, outcome, determined }) => [refusal, outcome, Number(determined)]);
  const lines = answers.map((answer, k) => `${k} ${answer.join(" ")}\n`);
  assert.equal(`step refusal outcome determined\n${lines.join("")}${session.state}`, program("job", text));
  assert.equal(jobOfSession(session), text);
});

test("moves are written and read back", () => {
  for (const move of mixed(9, 17, 500)) assert.deepEqual(unwritten(written(move)), move);
  const none = ["", "FOO.1", "H", "H.0.1", "MZ.0.2", "gate.0.0.1000"];
  for (const text of none) assert.throws(() => unwritten(text), /move that is none/, text);
  for (const move of mixed(9, 18, 200)) assert.ok(said(move));
});

test("records are packed and unpacked, and others are refused", () => {
  for (let n = 1; n <= 64; n += 7) {
    const state = State.zeros(n);
    state.run(loaded(generate(n, 5 * n, n)).moves.map(({ step }) => step));
    assert.equal(String(unpacked(packed(state))), String(state));
  }
  const none = ["", "2.AA", "3.AA..0", "2.AY..0", "65.A..0", "1.A..2", "2.MM..3"];
  for (const text of none) assert.throws(() => unpacked(text), Refusal, text);
});

test("a link holds the session, its places and its named states", () => {
  const session = new Session(State.zeros(5), mixed(5, 23, 80), 60);
  const store = new Store();
  store.save("one & 2", session.state);
  const places = circle(session.state.n);
  const again = opened(`#${linkOf({ session, places, store })}`);
  assert.equal(String(again.session.state), String(session.state));
  assert.deepEqual([again.session.at, again.session.moves], [60, session.moves]);
  assert.deepEqual(again.store.names(), ["one & 2"]);
  assert.equal(String(again.store.returnTo("one & 2")), String(session.state));
  const flat = places.flat();
  again.places.flat().forEach((part, k) => assert.ok(Math.abs(part - flat[k]) < 1e-3));
  assert.match(linkOf({ session, places, store }), /^[\w.~*;=&,%-]+$/);
  assert.equal(String(opened(stateLink({ session, places })).session.state), String(session.state));
  assert.equal(strings(opened("#start=2.II..0&moves=H.0;CX.0.1").session.state), "+XX +ZZ");
  assert.throws(() => opened("#start=nothing"), /record that is none/);
});

test("jobs that make a state make it, used photons too", () => {
  for (let seed = 1; seed < 12; seed++) {
    const session = new Session(State.zeros(6), mixed(6, seed, 40), 40);
    const again = loaded(jobOfState(session.state));
    const made = new Session(again.start, again.moves, again.moves.length);
    assert.ok(made.state.equals(session.state) && made.state.used === session.state.used);
    assert.ok(made.answers.every(({ refusal }) => refusal === 0));
    assert.ok(program("job", jobOfState(session.state)).endsWith(String(made.state)));
  }
});

test("a session that is a job is written as one, and another is not", () => {
  const session = new Session(State.zeros(1));
  const steps = [moves.add(8), moves.add(2), moves.gate(0, 8), moves.pair("CX", 0, 1), moves.observe("Z", 1, 1)];
  for (const move of steps) assert.equal(session.do(move).refusal, 0);
  assert.ok(program("job", jobOfSession(session)).endsWith(String(session.state)));
  session.do(moves.renew(1, 8));
  assert.equal(jobOfSession(session), null);
});

test("gates on two qubits are what they are called", () => {
  const stateOf = (list) => State.fromStrings(...list.split(" "));
  const after = (state, ...names) => new Session(state, names.map((name) => moves.pair(name, 0, 1)), names.length).state;
  const sent = (name) => ["+XI +IZ", "+ZI +IX", "+YI +IZ", "+ZI +IY"].map((list) => strings(after(stateOf(list), name)));
  const due = (...lists) => lists.map((list) => strings(stateOf(list)));
  assert.deepEqual(sent("CX"), due("+XX +ZZ", "+ZI +IX", "+YX +ZZ", "+ZI +ZY"));
  assert.deepEqual(sent("CZ"), due("+XZ +IZ", "+ZI +ZX", "+YZ +IZ", "+ZI +ZY"));
  assert.deepEqual(sent("CY"), due("+XY +ZZ", "+ZI +ZX", "+YY +ZZ", "+ZI +IY"));
  assert.deepEqual(sent("SWAP"), due("+IX +ZI", "+IZ +XI", "+IY +ZI", "+IZ +YI"));
  assert.deepEqual(sent("ISWAP"), due("+ZY +ZI", "+IZ +YZ", "-ZX +ZI", "+IZ -XZ"));
  assert.deepEqual(sent("XCZ"), due("+XI +IZ", "+ZZ +XX", "+YZ +IZ", "+ZZ +XY"));
  assert.deepEqual(sent("XCX"), due("+XI +XZ", "+ZX +IX", "+YX +XZ", "+ZX +XY"));
  assert.deepEqual(sent("YCY"), due("+XY +YZ", "+ZY +YX", "+YI +YZ", "+ZY +IY"));
  for (const name of ["XCX", "XCY", "XCZ", "YCX", "YCY", "YCZ", "CX", "CY", "CZ", "SWAP"]) {
    const state = State.fromStrings("+XZ", "+YY");
    assert.equal(strings(after(state, name, name)), strings(state.reduced()), name);
  }
});

test("circuits are read, with coordinates, repetition and bits by lot", () => {
  const repeated = "REPEAT 2 {\n  MR 0\n  REPEAT 2 {\n    S_DAG 1\n  }\n}\n";
  const head = "# a comment\nQUBIT_COORDS(0, 1) 0\nQUBIT_COORDS(2, 1) 1\nR 0 1\nH 0\nCNOT 0 1 # more\nTICK\nM 0 1\n";
  const text = `${head}${repeated}MPP X0*X1 Z0\nMXX 0 1\nDETECTOR rec[-1]\n`;
  const { start, moves: read, places, kind } = loaded(text, () => 1);
  assert.deepEqual([kind, start.n, places], ["circuit", 2, [[0, 0.5], [1, 0.5]]]);
  const session = new Session(start, read, read.length);
  assert.deepEqual(session.answers.filter(({ told }) => told).map(({ outcome, determined }) => [outcome, determined]),
    [[1, false], [1, true], [1, true], [0, true], [1, false], [1, false], [1, false]]);
  assert.equal(session.state.used, 0n);
});

test("what is no circuit without noise is refused, by name and line", () => {
  const refused = [
    ["H 0\nX_ERROR(0.1) 0", "line 2: X_ERROR is noise"],
    ["M(0.01) 3", "line 1: M(0.01) is noise"],
    ["DEPOLARIZE1(0.1) 0", "line 1: DEPOLARIZE1 is noise"],
    ["CX rec[-1] 0", "line 1: rec[-1]: gates that depend"],
    ["M !0", "line 1: !0: inverted"],
    ["H 64", "line 1: qubit 64: 64 qubits"],
    ["FOO 1", "line 1: FOO is not taken here"],
    ["REPEAT 2 {\nH 0", "line 1: no brace closes"],
    ["H 0\n}", "line 2: a brace closes"],
    ["CX 0 1 2", "line 1: an odd number"],
    ["REPEAT 99999 {\nH 0\n}", "line 1: more than 4,096"],
    ["MPP X0*Q1", "line 1: Q1 is no Pauli"],
    ["?!", "line 1: '?!' is no instruction"],
  ];
  for (const [given, said] of refused) assert.throws(() => loaded(given), ({ message }) => message.startsWith(said), given);
});

test("every gate's name is Stim's: a circuit's gate does what its code does", () => {
  for (const [code, name] of NAMES.entries()) {
    const { start, moves: read } = loaded(`H 0\nS 0\n${name} 0\n`);
    const state = State.zeros(1);
    state.h(0);
    state.s(0);
    state.gate(0, code);
    assert.equal(strings(new Session(start, read, read.length).state), strings(state));
  }
});

test("pasted texts are read without their last newline, and faults say the line", () => {
  assert.equal(strings(loaded("  +XX\r\n+ZZ").start), "+XX +ZZ");
  assert.equal(loaded("qubits\n2\nop a b value\ncz 0 1 0").moves.length, 1);
  assert.throws(() => loaded("qubits\n2\nop a b value\nhop 0 1 0\n"), /line 4, column 1: expected gate, cz/);
  assert.throws(() => loaded("+XX\n+ZI\n"), /refused 9/);
});

test("examples and families are states, and the codes' are those of their stabilizers", () => {
  for (const [name, make] of Object.entries(EXAMPLES)) {
    const { state, places } = make();
    assert.equal(places(1.3).length, state.n, name);
  }
  for (const family of Object.values(FAMILIES)) for (const n of [1, 2, 5]) State.graph(n, family(n));
  assert.equal(EXAMPLES["Five-qubit code, logical zero"]().state.expectation("ZZZZZ"), 1);
  assert.doesNotThrow(() => GeneratorList.fromStrings("+XX", "+ZZ").check());
});

test("places stay between 0 and 1, and a free one is apart from all others", () => {
  const made = [circle(7), grid(10, 4), usual(64, 2), springs([[0, 1], [1, 2]], circle(5)), springs([], circle(64))];
  for (const places of made) {
    for (const place of places) for (const part of place) assert.ok(part >= -1e-9 && part <= 1 + 1e-9);
  }
  const held = usual(20);
  const [x, y] = free(held);
  assert.ok(Math.min(...held.map(([u, v]) => Math.hypot(x - u, y - v))) > 0.05);
});

test("an edge that would run through another vertex is bent round it", () => {
  const points = [[0, 0], [50, 2], [100, 0], [50, 90]];
  assert.equal(pathOf([[0, 1]], points, 10), "M0.0 0.0L50.0 2.0");
  assert.match(pathOf([[0, 2]], points, 10), /^M0\.0 0\.0Q50\.0 [\d.]+ 100\.0 0\.0$/);
});

test("a drawing stands by itself", () => {
  const state = State.graph(3, [[0, 1], [1, 2]], ["I", "H", "S_DAG"]);
  const text = drawing(state, circle(3));
  assert.deepEqual([text.match(/<path class="edge"/g).length, text.match(/<circle/g).length], [2, 3]);
  assert.ok(text.includes(">S†</text>") && !/href|url\(|@import/.test(text));
});

test("answers in words", () => {
  assert.equal(answered({ refusal: 14 }), "refused 14: a determined outcome contradicts the supplied bit");
  assert.equal(answered({ refusal: 0, told: true, outcome: 1, determined: true }), "outcome 1, determined");
});

/** The contrast of two colours, as the guidelines for accessible pages define it. */
function contrast(first, second) {
  const linear = (part) => (part <= 0.04045 ? part / 12.92 : ((part + 0.055) / 1.055) ** 2.4);
  const part = (colour, k) => linear(parseInt(colour.slice(1 + 2 * k, 3 + 2 * k), 16) / 255);
  const light = (colour) => [0.2126, 0.7152, 0.0722].reduce((sum, weight, k) => sum + weight * part(colour, k), 0);
  const [low, high] = [light(first), light(second)].sort((a, b) => a - b);
  return (high + 0.05) / (low + 0.05);
}

test("texts and marks have contrast enough, in light and in dark", () => {
  const style = readFileSync(`${ROOT}web/style.css`, "utf8");
  const coloursOf = (block) => new Map([...block.matchAll(/--([\w-]+): (#[0-9a-f]{6})/g)].map(([, ...pair]) => pair));
  const blocks = [...style.matchAll(/:root[^{]*\{([^}]*--ground[^}]*)\}/g)].map(([, block]) => coloursOf(block));
  assert.equal(blocks.length, 3);
  assert.deepEqual(blocks[1], blocks[2]);
  for (const colours of blocks) {
    const check = (name, ground, least) => {
      const found = contrast(colours.get(name), colours.get(ground));
      assert.ok(found >= least, `${name} on ${ground}: ${found.toFixed(2)}`);
    };
    for (const ground of ["ground", "paper"]) {
      for (const text of ["ink", "soft", "gate", "bad", "side", "accent"]) check(text, ground, 4.5);
      for (const mark of ["strong", "edge", "vertex", "fresh", "gone"]) check(mark, ground, 3);
      for (const phase of [0, 1, 2, 3]) check(`phase-${phase}`, ground, 3);
    }
    check("on-vertex", "vertex", 4.5);
    check("on-accent", "accent", 4.5);
    check("bad", "bad-fill", 4.5);
    for (const phase of ["phase-0", "phase-1", "phase-2"]) check(phase, "paper", 4.5);
  }
});

test("no file asks for anything from elsewhere", () => {
  const files = ["", "page/", "engine/"].flatMap((part) => readdirSync(`${ROOT}web/${part}`).map((name) => `${ROOT}web/${part}${name}`));
  const texts = files.filter((name) => /\.(js|mjs|html|css|svg)$/.test(name)).map((name) => readFileSync(name, "utf8"));
  assert.ok(texts.length > 40);
  for (const text of texts) assert.ok(!/\/\/[a-z0-9-]+\.[a-z]/i.test(text.replaceAll("http://www.w3.org/2000/svg", "")));
});
