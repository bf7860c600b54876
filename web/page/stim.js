// Circuits in Stim's language, read into moves. A measurement there keeps its qubit: it becomes one that uses no photon up.
// Bits by lot are drawn as the circuit is read. Noise, inverted targets and targets of earlier results are refused.
import { NAMES, fairBit } from "../engine/index.js";
import * as moves from "./moves.js";
import { PAIRS } from "./pairs.js";

const MOST = 4096;
const ALIASES = {
  SQRT_Z: "S", SQRT_Z_DAG: "S_DAG", H_XZ: "H", CNOT: "CX", ZCX: "CX", ZCY: "CY", ZCZ: "CZ", MZ: "M", RZ: "R", MRZ: "MR",
};
const IGNORED = new Set(["TICK", "DETECTOR", "OBSERVABLE_INCLUDE", "SHIFT_COORDS", "MPAD"]);
const NOISY = "is noise: only states without noise are held here";
const NOISE = /ERROR|DEPOLARIZE|PAULI_CHANNEL|CORRELATED|HERALDED/;

/** Says the line of what is wrong. */
function fail(line, said) {
  throw new Error(`line ${line}: ${said}`);
}

function qubitOf(target, line) {
  if (target.startsWith("!")) fail(line, `${target}: inverted results are not taken here`);
  if (/^(rec|sweep)\[/.test(target)) fail(line, `${target}: gates that depend on earlier results are not taken here`);
  if (!/^\d+$/.test(target)) fail(line, `${target} is no qubit`);
  if (Number(target) > 63) fail(line, `qubit ${target}: 64 qubits, 0 to 63, are the most`);
  return Number(target);
}

function couples(targets, line) {
  if (targets.length % 2) fail(line, "an odd number of targets for a gate on two qubits");
  return targets.flatMap((target, k) => (k % 2 ? [[targets[k - 1], target]] : []));
}

const factorOf = (factor, line) => {
  const found = /^([XYZ])(\d+)$/.exec(factor);
  if (!found) fail(line, `${factor} is no Pauli of a qubit, as X3`);
  return `${found[1]}${qubitOf(found[2], line)}`;
};

/** The moves of one instruction. */
function instruction(name, targets, line, draw) {
  const qubits = () => targets.map((target) => qubitOf(target, line));
  const letter = /[XYZ]$/.exec(name)?.[0] ?? "Z";
  const joint = (...factors) => moves.product(factors.join("*"), draw());
  if (NAMES.includes(name)) return qubits().map((qubit) => moves.gate(qubit, NAMES.indexOf(name)));
  if (PAIRS[name]) return couples(qubits(), line).map(([a, b]) => moves.pair(name, a, b));
  if (/^M[XY]?$/.test(name)) return qubits().map((qubit) => joint(`${letter}${qubit}`));
  if (/^M?R[XY]?$/.test(name)) return qubits().map((qubit) => moves.reset(letter, qubit, draw(), name.startsWith("M")));
  if (/^M(XX|YY|ZZ)$/.test(name)) return couples(qubits(), line).map(([a, b]) => joint(`${letter}${a}`, `${letter}${b}`));
  if (name === "MPP") return targets.map((target) => joint(...target.split("*").map((factor) => factorOf(factor, line))));
  if (NOISE.test(name)) fail(line, `${name} ${NOISY}`);
  return fail(line, `${name} is not taken here`);
}

/** Some moves more, 4,096 in all at most. */
function joined(found, more, line) {
  if (found.length + more.length > MOST) fail(line, "more than 4,096 moves");
  found.push(...more);
}

/** Reads a block that repeats: its moves, and the place of its closing brace. */
function repeated(lines, at, times, draw, circuit) {
  const found = [];
  let end = at;
  for (let k = 0; k < Math.max(1, times); k++) {
    const inner = block(lines, at + 1, draw, circuit);
    if (inner.at >= lines.length) fail(lines[at].line, "no brace closes this block");
    if (k < times) joined(found, inner.found, lines[at].line);
    end = inner.at;
  }
  return { found, at: end };
}

/** Reads lines from a place on, up to the end or a closing brace. */
function block(lines, from, draw, circuit) {
  const found = [];
  let at = from;
  for (; at < lines.length && lines[at].text !== "}"; at++) {
    const { text, line } = lines[at];
    const repeat = /^REPEAT (\d{1,9}) ?\{$/i.exec(text);
    if (repeat) {
      const inner = repeated(lines, at, Number(repeat[1]), draw, circuit);
      joined(found, inner.found, line);
      at = inner.at;
    } else {
      joined(found, one(text, line, draw, circuit), line);
    }
  }
  return { found, at };
}

/** The moves of a line; coordinates go to the circuit's places. */
function one(text, line, draw, circuit) {
  const parts = /^([A-Za-z_][A-Za-z0-9_]*)(?:\[[^\]]*\])?(?:\(([^)]*)\))?((?: .*)?)$/.exec(text);
  if (!parts) fail(line, `'${text.slice(0, 30)}' is no instruction`);
  const name = ALIASES[parts[1].toUpperCase()] ?? parts[1].toUpperCase();
  const targets = parts[3].trim() ? parts[3].trim().split(/\s+/) : [];
  if (name === "QUBIT_COORDS") {
    const [x = 0, y = 0] = (parts[2] ?? "").split(",").map(Number);
    for (const target of targets) circuit.coordinates.set(qubitOf(target, line), [x, y]);
    return [];
  }
  if (IGNORED.has(name)) return [];
  if (parts[2] !== undefined && !NOISE.test(name)) fail(line, `${name}(${parts[2]}) ${NOISY}`);
  return instruction(name, targets, line, draw);
}

function highest(move) {
  if (move.kind === "product") return Math.max(...move.factors.split("*").map((factor) => Number(factor.slice(1))));
  if (move.kind === "pair") return Math.max(move.a, move.b);
  return move.kind === "job" ? Math.max(move.step[1], move.step[2]) : move.qubit;
}

/** Places from coordinates, spread from 0 to 1; null where a qubit has none. */
function placesFrom(coordinates, n) {
  if (coordinates.size < n || n === 0) return null;
  const axes = [0, 1].map((axis) => Array.from({ length: n }, (_, q) => coordinates.get(q)?.[axis] ?? 0));
  const [low, high] = [axes.map((axis) => Math.min(...axis)), axes.map((axis) => Math.max(...axis))];
  const at = (axis, q) => (high[axis] > low[axis] ? (axes[axis][q] - low[axis]) / (high[axis] - low[axis]) : 0.5);
  return Array.from({ length: n }, (_, q) => [at(0, q), at(1, q)]);
}

/** n, the moves and perhaps places of a circuit; an Error with the line where one is not taken. */
export function readStim(text, draw = fairBit) {
  const tidy = (raw) => raw.replace(/#.*/, "").trim().replace(/\s+/g, " ");
  const lines = text.split(/\r?\n/).map((raw, k) => ({ text: tidy(raw), line: k + 1 }));
  const filled = lines.filter((line) => line.text);
  const circuit = { coordinates: new Map() };
  const { found, at } = block(filled, 0, draw, circuit);
  if (at < filled.length) fail(filled[at].line, "a brace closes that none opened");
  const n = 1 + Math.max(0, ...found.map(highest), ...circuit.coordinates.keys());
  return { n, moves: found, places: placesFrom(circuit.coordinates, n) };
}
