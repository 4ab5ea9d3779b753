/* What a line of the recorder's holds, and where it stands. What is missing, of another kind or misspelt is named by its key. */

import { nearest } from "../common/nearest.mjs";

/* The key under which an event has its file and its line: { file, line }. */
export const AT = Symbol("where an event stands");

/* An event as faults name it: `ann, event 7 (ann.log, line 8)`. */
export const nameOf = (event) => `${event.who}, event ${event.n}${event[AT] ? ` (${placeOf(event)})` : ""}`;

/* An event's file and line. */
export const placeOf = (event) => `${event[AT].file}, line ${event[AT].line}`;

const isOperation = (value) => Array.isArray(value) && value.every((x) => typeof x === "string" || Number.isInteger(x));
const isObject = (value) => typeof value === "object" && value !== null && !Array.isArray(value);

/* The words of `do`, with what their events have to hold: at once, and unless the method threw. */
const NUMBER = ["a whole number", Number.isInteger];
const TEXT = ["a string", (value) => typeof value === "string"];
const OPERATION = ["an array of whole numbers and strings", isOperation];
const MESSAGE = ["an object with revision and operation", isObject];
const ROLE = ['"client" or "server"', (value) => value === "client" || value === "server"];
const MADE = { revision: NUMBER, document: TEXT };
const HOLDS = {
  open: [{ role: ROLE }, MADE],
  edit: [{ edit: OPERATION }, MADE],
  deliver: [{ operation: OPERATION }, MADE],
  ack: [{}, MADE],
  take: [{ given: MESSAGE }, { ...MADE, appended: OPERATION }],
};
const WORDS = Object.keys(HOLDS);
const WORD = [`one of ${WORDS.join(", ")}`, (value) => WORDS.includes(value), WORDS];

/* What each event has to hold, and what it may. */
const EACH = { who: TEXT, n: NUMBER, do: WORD };
const MAY_HOLD = ["time", "state", "outstanding", "buffer", "sent", "applied", "stopped"];

const quoted = (word) => JSON.stringify(word);
const shown = (value) => JSON.stringify(value).slice(0, 60);

/* What is wrong with an object's keys, or null: kinds are those of the keys that it has to have. A key that is missing or is none may be meant by another one. */
function faultOfKeys(object, kinds, known, path = "") {
  const strange = Object.keys(object).filter((key) => !known.includes(key));
  for (const [key, [kind, isOne, words = []]] of Object.entries(kinds)) {
    const value = object[key];
    const [near] = value === undefined ? nearest(key, strange) : nearest(String(value), words);
    if (value === undefined) return `${quoted(path + key)} is missing${near === undefined ? "" : `; ${quoted(path + near)} is there`}`;
    if (!isOne(value)) return `${quoted(path + key)} is ${shown(value)}; wanted ${kind}${near === undefined ? "" : `; nearest: ${quoted(near)}`}`;
  }
  const free = known.filter((key) => !Object.hasOwn(object, key));
  for (const key of strange) {
    const [near] = nearest(key, free);
    if (near !== undefined) return `${quoted(path + key)} is no key; nearest: ${quoted(near)}`;
  }
  return null;
}

/* What is wrong with an event, or null. */
export function faultOf(event) {
  const [now, unlessThrown] = WORDS.includes(event.do) ? HOLDS[event.do] : [{}, {}];
  const kinds = { ...EACH, ...now, ...(event.stopped === undefined ? unlessThrown : {}) };
  const known = [...Object.keys({ ...EACH, ...now, ...unlessThrown }), ...MAY_HOLD];
  const fault = faultOfKeys(event, kinds, known);
  if (fault !== null || event.do !== "take") return fault;
  return faultOfKeys(event.given, { revision: NUMBER, operation: OPERATION }, ["revision", "operation"], "given.");
}
