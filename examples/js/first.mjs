// A ring of six through sukhlent.mjs: a gate, a measurement, a cut, a comparison, and a refusal.
import { NAMES, Refusal, State, load } from "../../target/web/sukhlent.mjs";

await load();
const ring = State.graph(6, [[0, 1], [1, 2], [2, 3], [3, 4], [4, 5], [5, 0]]);
ring.gate(2, "S");
console.log(ring.measure("Y", 0, 1), "entanglement of 1 and 2 with the rest:", ring.cut([1, 2]));
console.log(...ring.generators().strings());
const five = State.graph(6, [[1, 2], [2, 3], [3, 4], [4, 5], [5, 1]]);
console.log("onto a plain ring of five:", ...ring.compare(five).choice.map((code) => NAMES[code]));
try {
  ring.h(0);
} catch (error) {
  if (error instanceof Refusal) console.log(error.message);
}
