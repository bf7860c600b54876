// The published list of refusals, in checking order, and the error that carries one.

/** number: [its name, what is wrong] */
const LIST = new Map([
  [1, ["FORM", "the text does not have its form"]],
  [15, ["STEPS", "a job or a run has more than 4,096 steps"]],
  [2, ["COUNT", "n is 0 or above the call's limit, or the two lists' or records' n differ, or a group's call, or a state that it holds, has another n than 64"]],
  [4, ["LENGTH", "a buffer's length is not what is required"]],
  [5, ["STRAY", "a word has a bit at or above n"]],
  [6, ["VALUE", "a sign, outcome or group is above 1, a code above 23 or no photon's, a Pauli not 1 to 3, a seed 0, a run's operation above 6, or a field that a step does not use is not 0"]],
  [7, ["GRAPH", "a graph is not simple, or a used vertex has a neighbour or a code that no measurement leaves, or a store holds a name twice, or a group's held state has a neighbour outside it"]],
  [19, ["OTHER_GROUP", "a group's call names a qubit of the other group, or the record has an edge between the groups"]],
  [8, ["QUBIT", "a qubit number is n or more, or a qubit is named twice, or a pivot's pair has no edge"]],
  [16, ["USED", "the call names a used qubit"]],
  [20, ["NOT_USED", "the qubit to renew is not used"]],
  [17, ["NOT_HELD", "a name to return to or forget is not held"]],
  [18, ["FULL", "a save finds eight other names held, or a group's save four"]],
  [9, ["ANTICOMMUTE", "two generators do not commute"]],
  [10, ["DEPENDENT", "the generators are dependent"]],
  [3, ["LARGE", "a connected part has more than 20 vertices"]],
  [14, ["CONTRADICTED", "a determined outcome contradicts the supplied bit"]],
  [11, ["IMAGE_C", "the image is that of no graph: the image loop stops with some C = 1"]],
  [12, ["IMAGE_Y", "the image has Y at some vertex's own place"]],
  [13, ["INEQUIVALENT", "no choice of local Cliffords carries one group to the other"]],
]);

/** TEXTS.get(number): what is wrong; in checking order */
export const TEXTS = new Map([...LIST].map(([number, [, text]]) => [number, text]));

const numbers = [...LIST.keys()];

/** The numbers that are checked before stray bits: none of them is about the bits of a word. */
export const BEFORE_STRAY = new Set(numbers.slice(0, numbers.indexOf(5)));

/** A refused call: number, name and text of the published list. `where` says where a text leaves its form. */
export class Refusal extends Error {
  constructor(number, where = "") {
    const [name, text] = LIST.get(number) ?? ["UNKNOWN", "no number of the published list"];
    super(`refused ${number}: ${where || text}`);
    this.name = "Refusal";
    this.number = number;
    this.refusal = name;
    this.text = text;
    this.where = where;
  }
}

/** Throws where a call did not answer 0. */
export function accept(number) {
  if (number !== 0) throw new Refusal(number);
}
