// Where a text leaves its form, in words: line, column, and what was expected there; null of a text that has its form.

/** the operations of a job, in the order of their numbers */
export const OPS = Object.freeze(["gate", "cz", "measure", "complement", "pivot"]);

const SPACE = [/ /y, "one space"];
const HEX = [/[0-9a-f]{16}/y, "16 lower-case hexadecimal digits"];
const FIELD = [/0|[1-9][0-9]{0,2}/y, "a number of one to three digits without a leading zero"];
const OP = [new RegExp(OPS.join("|"), "y"), "gate, cz, measure, complement or pivot"];
const GENERATOR = [[/[0-9]/y, "a sign digit"], SPACE, HEX, SPACE, HEX];
const STEP = [OP, SPACE, FIELD, SPACE, FIELD, SPACE, FIELD];
const STRING = [[/[+-]/y, "+ or -"], [/[IXYZ]+/y, "letters I, X, Y or Z"], [/$/y, "a letter I, X, Y or Z"]];

const literal = (text) => [[new RegExp(text, "y"), `the line '${text}'`]];

const vertex = (number) => [
  [new RegExp(String(number), "y"), `${number}, the vertices rising from 0`], SPACE,
  [/0|[1-9][0-9]?/y, "a code"], SPACE, HEX, SPACE, [/[01]/y, "0 or 1, for a used qubit"],
];

/** The column, from 1, at which a line leaves its pieces, and what was expected there. */
function lineFault(line, pieces) {
  let at = 0;
  for (const [pattern, name] of pieces) {
    pattern.lastIndex = at;
    const found = pattern.exec(line);
    if (found === null) return [at + 1, name];
    at += found[0].length;
  }
  return at === line.length ? null : [at + 1, "the end of the line"];
}

/** The fault of one line, with its number. */
function faultAt(line, number, pieces) {
  const whole = line.replace(/\r$/, "");
  const fault = lineFault(whole, pieces);
  if (fault) return `line ${number}, column ${fault[0]}: expected ${fault[1]}`;
  if (whole === line) return null;
  return `line ${number}, column ${line.length}: a carriage return; lines end with a newline alone, not CRLF`;
}

/** The first fault of a text whose first lines are `heads` and whose line k after them is `body(k)`. */
function fault(text, heads, body) {
  const lines = text.split("\n");
  const rest = lines.pop();
  for (const [place, line] of (rest ? [...lines, rest] : lines).entries()) {
    const said = faultAt(line, place + 1, place < heads.length ? heads[place] : body(place - heads.length));
    if (said) return said;
  }
  if (rest) return `line ${lines.length + 1}, column ${rest.length + 1}: expected a newline, which ends the last line too`;
  if (lines.length < heads.length) return `line ${lines.length + 1}, column 1: expected ${heads[lines.length][0][1]}`;
  return null;
}

export const LIST_NAMES = "sign z x";
export const RECORD_NAMES = "qubit code neighbours used";
export const ANSWER_NAMES = "step refusal outcome determined";

export const listFault = (text) => fault(text, [literal(LIST_NAMES)], () => GENERATOR);
export const recordFault = (text) => fault(text, [literal(RECORD_NAMES)], vertex);
export const jobFault = (text) => fault(text, [literal("qubits"), [FIELD], literal("op a b value")], () => STEP);

export function stringFault(text) {
  const said = fault(text, [], () => STRING);
  if (said) return said;
  const lines = text.split("\n").slice(0, -1);
  const place = lines.findIndex((line) => line.length - 1 !== lines.length);
  if (place < 0) return null;
  return `line ${place + 1} has ${lines[place].length - 1} letters: expected ${lines.length}, as many as lines`;
}
