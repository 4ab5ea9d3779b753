/* Keys of a trace, of a plan or of a port's lines that are no keys there, and the key that each is nearest to. */

import { valueIn } from "../common/json.mjs";
import { nearest } from "../common/nearest.mjs";
import { textOf } from "../common/text.mjs";
import { visible } from "../common/visible.mjs";

const MOST = 1 << 26; // bytes that are looked through
const LONGEST = 40; // letters of a key that may be meant as another

/* The keys of each kind of object, and the objects within one: each item of `list`, or with `rows` each item of each of its items. */
const KEYS = {
  trace: { keys: ["replicas", "start", "events"], list: "events", within: "event" },
  event: { keys: ["replica", "kind", "seen", "insert", "delete", "list"] },
  plan: { keys: ["clients", "workers", "typing", "start", "present"], list: "typing", rows: true, within: "action" },
  action: { keys: ["at", "delete", "insert"] },
};

const OF_STEPS = "at do client clients present start edit revision state outstanding buffer sent applied appended document message end stopped".split(" ");

const isObject = (value) => value !== null && typeof value === "object" && !Array.isArray(value);

function* objectsIn(value, kind, place) {
  if (!isObject(value)) return;
  yield { value, kind, place };
  const { list, rows, within } = KEYS[kind];
  const items = Array.isArray(value[list]) ? value[list] : [];
  for (const [i, item] of items.entries()) {
    if (!rows) yield* objectsIn(item, within, ` of ${within} ${i}`);
    else for (const [k, one] of (Array.isArray(item) ? item : []).entries()) yield* objectsIn(one, within, ` of ${list}[${i}][${k}]`);
  }
}

const parsed = (input) => (input.length > MOST ? null : valueIn(textOf(input)));

/* The key that is meant, if there is one. */
const meantBy = (key, keys) => (key.length > LONGEST ? undefined : nearest(key, keys)[0]);

const told = (key, place, meant) => `the key ${visible(JSON.stringify(key))}${place}; nearest: ${meant}`;

/**
 * The first key of a trace or a plan that is near one which its object lacks.
 * @param {"trace" | "plan"} kind @param {Uint8Array} input
 * @returns {string[]} a line, or none
 */
export function misspelledIn(kind, input) {
  for (const { value, kind: its, place } of objectsIn(parsed(input), kind, "")) {
    const lacking = KEYS[its].keys.filter((key) => !Object.hasOwn(value, key));
    for (const key of Object.keys(value)) {
      const meant = KEYS[its].keys.includes(key) ? undefined : meantBy(key, lacking);
      if (meant !== undefined) return [told(key, place, meant)];
    }
  }
  return [];
}

/** Of unknown keys in a port's lines those that are near a key of `steps`, a line each. @param {{ key: string, line: number }[]} unknown */
export const misspelled = (unknown) =>
  unknown.flatMap(({ key, line }) => {
    const meant = key.includes(".") ? undefined : meantBy(key, OF_STEPS);
    return meant === undefined ? [] : [told(key, ` of line ${line}`, meant)];
  });
