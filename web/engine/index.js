// What the package offers.
export { load, version } from "./library.js";
export { fairBit } from "./numbers.js";
export { NAMES, SYMBOLS, code, images } from "./codes.js";
export { Refusal, TEXTS } from "./refusals.js";
export { GeneratorList, rowWords } from "./lists.js";
export { State } from "./state.js";
export { Store } from "./store.js";
export { OPS, generate, jobText, parseJob } from "./jobs.js";
export { readState } from "./texts.js";
