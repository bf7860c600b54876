// JavaScript's numbers as the engine takes them. What no word or byte holds becomes what every call refuses likewise.

const TOP = (1n << 64n) - 1n;

/** An integer as a BigInt; a TypeError where it is none. */
function integer(value) {
  if (typeof value === "bigint") return value;
  if (Number.isSafeInteger(value)) return BigInt(value);
  throw new TypeError(`${String(value)} is not an integer`);
}

const fits = (value) => value >= 0n && value <= TOP;

/** Stands for a word with a bit that no word has. */
export const WIDE = Object.freeze({ wide: true });

/** A word of bits. */
export function bits(value) {
  const whole = integer(value);
  return fits(whole) ? whole : WIDE;
}

/** A buffer of words; marked as wide where one has a bit that no word has. */
export function words(values) {
  const given = Array.from(values, bits);
  const buffer = BigUint64Array.from(given, (value) => (value === WIDE ? 0n : value));
  if (given.includes(WIDE)) buffer.wide = true;
  return buffer;
}

/** The word with these bits. */
export function wordOf(places) {
  let word = 0n;
  for (const place of places) word |= 1n << (place >= 0 && place < 64 ? integer(place) : 64n);
  return bits(word);
}

/** A qubit number or a count. */
export function place(value) {
  const whole = integer(value);
  return fits(whole) ? whole : TOP;
}

/** A byte. */
export function octet(value) {
  const whole = integer(value);
  return whole >= 0n && whole <= 255n ? Number(whole) : 255;
}

/** A buffer of bytes. */
export const octets = (values) => Uint8Array.from(values, octet);

/** A buffer of numbers of 16 bits. */
export const halves = (values) =>
  Uint16Array.from(values, (value) => {
    const whole = integer(value);
    return whole >= 0n && whole <= 65535n ? Number(whole) : 65535;
  });

/** A 64-bit number that is not a place: a seed, a name. */
export function whole(value) {
  const given = integer(value);
  if (!fits(given)) throw new RangeError(`${given} does not fit into 64 bits`);
  return given;
}

/** The bits of a word, lowest first, as numbers. */
export function placesOf(word) {
  const found = [];
  for (let place = 0, rest = word; rest > 0n; place++, rest >>= 1n) if (rest & 1n) found.push(place);
  return found;
}

/** A fair bit. */
export function fairBit() {
  return globalThis.crypto ? crypto.getRandomValues(new Uint8Array(1))[0] & 1 : Math.floor(2 * Math.random());
}
