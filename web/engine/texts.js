// The texts that stand for one state, read: Pauli strings, a generator list, a record, or what the program job prints.
import { ANSWER_NAMES, LIST_NAMES, RECORD_NAMES, listFault } from "./forms.js";
import { GeneratorList } from "./lists.js";
import { Refusal } from "./refusals.js";
import { State } from "./state.js";

/** The generator list of a text that the program reduce reads. */
function readList(text) {
  const fault = listFault(text);
  if (fault) throw new Refusal(1, fault);
  const rows = text.split("\n").slice(1, -1).map((line) => line.split(" "));
  const [z, x] = [1, 2].map((k) => rows.map((row) => BigInt(`0x${row[k]}`)));
  return new GeneratorList(rows.map((row) => Number(row[0])), z, x);
}

/** The state of any of these texts. */
export function readState(text) {
  if (text.startsWith(LIST_NAMES)) return State.fromGenerators(readList(text));
  if (text.startsWith(`${ANSWER_NAMES}\n`)) return State.fromText(text.slice(Math.max(0, text.indexOf(RECORD_NAMES))));
  if (text.startsWith("qubit code")) return State.fromText(text);
  return State.fromGenerators(GeneratorList.fromStrings(text.includes("\n") ? text : `${text}`));
}
