// Types of sukhlent.mjs.

/** A local Clifford by its name, its short form, or its number 0 to 23. */
export type Gate = string | number;
/** A Pauli by its letter, or as 1, 2 or 3. */
export type Pauli = "X" | "Y" | "Z" | 1 | 2 | 3;
/** The state of a new photon by its name, or by its code. */
export type Photon = "+X" | "-X" | "+Y" | "-Y" | "+Z" | "-Z" | 0 | 2 | 4 | 6 | 8 | 10;
export type Bit = 0 | 1;
export type Integer = number | bigint;
/** An operation (0 gate, 1 cz, 2 measure, 3 complement, 4 pivot), two qubits and a value. */
export type Step = readonly [op: number, a: number, b: number, value: number];

/** Loads the library, once, before anything else; where nothing is given, from sukhlent.wasm beside the package. */
export function load(source?: string | URL | BufferSource | WebAssembly.Module): Promise<void>;
/** The version of the library that was loaded. */
export function version(): string;

/** A fair bit. */
export function fairBit(): Bit;

/** NAMES[code]: its name. */
export const NAMES: readonly string[];
/** Short forms for drawings. */
export const SYMBOLS: readonly string[];
/** The code of a gate. */
export function code(gate: Gate): number;
/** Where a code sends X and Z, as ["+Z", "+X"]. */
export function images(code: number): [x: string, z: string];

/** The published list of refusals: TEXTS.get(number), in checking order. */
export const TEXTS: ReadonlyMap<number, string>;

/** A refused call: nothing has changed. */
export class Refusal extends Error {
  constructor(number: number, where?: string);
  readonly number: number;
  /** Its name in the header, without SUKHLENT_. */
  readonly refusal: string;
  readonly text: string;
  /** Where a text leaves its form, or "". */
  readonly where: string;
}

/** The words of a row such as "-XZI", leftmost letter qubit 0. */
export function rowWords(row: string, n: number): { sign: Bit; z: bigint; x: bigint };

/** n signed Pauli rows on n qubits. */
export class GeneratorList {
  constructor(signs: Iterable<number>, z: Iterable<bigint>, x: Iterable<bigint>);
  static fromStrings(...lines: string[]): GeneratorList;
  readonly signs: readonly number[];
  readonly z: readonly bigint[];
  readonly x: readonly bigint[];
  readonly n: number;
  buffers(): [signs: Uint8Array, z: BigUint64Array, x: BigUint64Array];
  check(): void;
  product(...rows: number[]): { phase: number; letters: string; z: bigint; x: bigint };
  strings(): string[];
  toString(): string;
  text(): string;
}

export interface Measured {
  outcome: Bit;
  /** Whether the state determined it. */
  determined: boolean;
}

/** A stabilizer state on 1 to 64 qubits, held as a record. Calls change it in place, or throw a Refusal and change nothing. */
export class State {
  constructor(neighbours: Iterable<Integer>, codes: Iterable<number>, used?: Integer);
  constructor(other: State);
  static zeros(n: number): State;
  static graph(n: number, edges: Iterable<readonly [number, number]>, gates?: Iterable<Gate>): State;
  static fromGenerators(list: GeneratorList): State;
  static fromStrings(...lines: string[]): State;
  static fromText(text: string): State;
  copy(): State;

  readonly n: number;
  readonly neighbours: bigint[];
  readonly codes: number[];
  readonly used: bigint;
  isUsed(qubit: number): boolean;
  neighboursOf(vertex: number): number[];
  edges(): [number, number][];
  generators(): GeneratorList;
  reduced(): State;
  isReduced(): boolean;
  equals(other: State): boolean;
  cut(side: Iterable<number>): number;
  amplitude(word: Integer): { re: number; im: number; p: number };
  expectation(row: string): 1 | -1 | 0;
  image(): { neighbours: bigint[]; signs: Bit[]; complementations: number[] };
  compare(other: State): { choice: number[]; complementations: number[] } | null;

  gate(qubit: Integer, gate: Gate): void;
  h(qubit: Integer): void;
  s(qubit: Integer): void;
  x(qubit: Integer): void;
  y(qubit: Integer): void;
  z(qubit: Integer): void;
  cz(a: Integer, b: Integer): void;
  cx(control: Integer, target: Integer): void;
  measure(pauli: Pauli, qubit: Integer, outcome?: Bit): Measured;
  observe(pauli: Pauli, qubit: Integer, bit: Bit): Measured;
  measureRow(row: string, bit?: Bit): Measured;
  renew(qubit: Integer, photon?: Photon): void;
  complement(vertex: Integer): void;
  run(steps: readonly Step[]): [refusal: number, outcome: Bit, determined: Bit][];
  grown(gate?: Gate): State;
  toString(): string;
}

/** Up to eight states under names of at most eight bytes. */
export class Store {
  save(name: string, state: State): void;
  returnTo(name: string): State;
  forget(name: string): void;
  names(): string[];
}

/** The operations of jobs, in the order of their numbers. */
export const OPS: readonly string[];
/** The text of a job that anyone can repeat. */
export function generate(n: Integer, count: Integer, seed: Integer): string;
export function jobText(n: number, steps: readonly Step[]): string;
export function parseJob(text: string): { n: number; steps: [number, number, number, number][] };
/** The state of Pauli strings, a generator list, a record, or what the program job prints. */
export function readState(text: string): State;
