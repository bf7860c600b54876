// A session as the part of an address behind #, and back: the start, the moves, how many are done, places, held states.
import { Store } from "../engine/index.js";
import { packed, unpacked } from "./packed.js";
import { Session } from "./session.js";
import { unwritten, written } from "./written.js";

const digits = (part) => Math.round(Math.max(0, Math.min(1, part)) * 1295).toString(36).padStart(2, "0");

const placesWritten = (places) => places.map((place) => place.map(digits).join("")).join("");

function placesRead(text) {
  const found = text.match(/[0-9a-z]{4}/g) ?? [];
  return found.map((four) => [parseInt(four.slice(0, 2), 36) / 1295, parseInt(four.slice(2), 36) / 1295]);
}

const heldWritten = (store) =>
  store.names().map((name) => `${encodeURIComponent(name)}~${packed(store.returnTo(name))}`).join(",");

function heldRead(text) {
  const store = new Store();
  for (const held of text ? text.split(",") : []) {
    const [name, record] = held.split("~");
    store.save(decodeURIComponent(name), unpacked(record));
  }
  return store;
}

/** The part of the address of a whole session. */
export function linkOf({ session, places, store }) {
  const parts = [`start=${packed(session.start)}`, `places=${placesWritten(places)}`];
  if (session.moves.length) parts.push(`at=${session.at}`, `moves=${session.moves.map(written).join(";")}`);
  if (store.names().length) parts.push(`held=${heldWritten(store)}`);
  return parts.join("&");
}

/** That of the state alone. */
export const stateLink = ({ session, places }) =>
  linkOf({ session: new Session(session.state), places: places.slice(0, session.state.n), store: new Store() });

/** The session of such a part, all moves done where it does not say how many; an Error or a Refusal where it is none. */
export function opened(hash) {
  const fields = new Map(hash.replace(/^#/, "").split("&").map((part) => part.split(/=(.*)/s, 2)));
  const moves = fields.get("moves") ? fields.get("moves").split(";").map(unwritten) : [];
  const session = new Session(unpacked(fields.get("start") ?? ""), moves, Number(fields.get("at") ?? moves.length));
  return { session, places: placesRead(fields.get("places") ?? ""), store: heldRead(fields.get("held")) };
}
