// The 24 local Cliffords by number and by name. A code is 4 × class + 2 × sx + sz: the class gives the letters to which X
// and Z go; sx or sz is 1 where that image is negative. Names are those that Stim uses.
import { Refusal } from "./refusals.js";

/** NAMES[code]: its name */
export const NAMES = Object.freeze([
  "I", "X", "Z", "Y",
  "S", "H_XY", "S_DAG", "H_NXY",
  "H", "SQRT_Y_DAG", "SQRT_Y", "H_NXZ",
  "SQRT_X_DAG", "SQRT_X", "H_YZ", "H_NYZ",
  "C_XYZ", "C_XYNZ", "C_XNYZ", "C_NXYZ",
  "C_ZYX", "C_ZNYX", "C_ZYNX", "C_NZYX",
]);

/** short forms for drawings; none for the identity */
export const SYMBOLS = Object.freeze(
  NAMES.map((name, code) => (code === 0 ? "" : name.replace("SQRT_", "√").replace("_DAG", "†"))),
);

const LETTERS = ["XZ", "YZ", "ZX", "XY", "YX", "ZY"];

const CODES = new Map([...NAMES, ...SYMBOLS].map((name, k) => [name.toLowerCase(), k % 24]).filter(([name]) => name));

/** The code of a gate by its name or short form, in any case, or by its number. */
export function code(gate) {
  if (typeof gate !== "string") return gate;
  const number = CODES.get(gate.toLowerCase());
  if (number === undefined) throw new RangeError(`no local Clifford is called '${gate}'; the names are ${NAMES.join(", ")}`);
  return number;
}

/** Where a code sends X and Z, as ["+Z", "+X"]. */
export function images(number) {
  if (!NAMES[number]) throw new Refusal(6);
  const [x, z] = LETTERS[number >> 2];
  return ["+-"[(number >> 1) & 1] + x, "+-"[number & 1] + z];
}
