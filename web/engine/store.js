// Named states: up to eight records, each held under a name of eight bytes.
import { call, wordCell } from "./library.js";
import { accept } from "./refusals.js";
import { State } from "./state.js";

/** A name as one number: at most eight bytes, filled up with spaces. */
function nameNumber(name) {
  const bytes = new TextEncoder().encode(name);
  if (bytes.length > 8) throw new RangeError(`a name has at most eight bytes: '${name}' has ${bytes.length}`);
  const filled = new Uint8Array(8).fill(32);
  filled.set(bytes);
  return new DataView(filled.buffer).getBigUint64(0, true);
}

function nameOf(number) {
  const bytes = new Uint8Array(8);
  new DataView(bytes.buffer).setBigUint64(0, number, true);
  return new TextDecoder().decode(bytes).trimEnd();
}

/** Up to eight states under names; a store starts empty. */
export class Store {
  #heads = new BigUint64Array(24);
  #neighbours = new BigUint64Array(512);
  #codes = new Uint8Array(512);

  #held() {
    return [this.#heads, this.#neighbours, this.#codes];
  }

  /** Holds the state under the name: in place of what is held under it, else at a free place; 18 where eight others are. */
  save(name, state) {
    const record = [BigInt(state.n), BigUint64Array.from(state.neighbours), Uint8Array.from(state.codes), state.used];
    accept(call("save", ...record, nameNumber(name), ...this.#held()));
  }

  /** The state held under the name, which stays held; 17 where there is none. */
  returnTo(name) {
    const [n, used] = [wordCell(), wordCell()];
    const [neighbours, codes] = [new BigUint64Array(64), new Uint8Array(64)];
    accept(call("return", nameNumber(name), ...this.#held(), n, neighbours, codes, used));
    const count = Number(n.value);
    return new State(neighbours.slice(0, count), codes.slice(0, count), used.value);
  }

  /** Makes the place of the name free; 17 where nothing is held under it. */
  forget(name) {
    accept(call("forget", nameNumber(name), ...this.#held()));
  }

  /** The names held, in the order of their places. */
  names() {
    const places = [...Array(8).keys()].filter((place) => this.#heads[3 * place] !== 0n);
    return places.map((place) => nameOf(this.#heads[3 * place + 1]));
  }
}
