// Where a port differs from ot.js once more: a fault stays in a client's document from then on, and each of its lines differs.
//
//     place 7   client 0 document  found "xab", ot.js "ab"      a difference
//     place 9   client 0 document  found "xabc", ot.js "abc"    the same one
//     place 12  client 0 document  found "xabcd", ot.js "abdc"  another

import { parting } from "../common/parting.mjs";
import { Search } from "./seeking.mjs";

const isNumber = (value) => typeof value === "number";
const isList = (value) => typeof value === "string" || Array.isArray(value);
const isObject = (value) => value !== null && typeof value === "object";

/* Of two components how much greater the one is; what they are, if they are no numbers. */
const apart = (found, ours) => (isNumber(found) && isNumber(ours) ? found - ours : [found, ours]);

/* What stands between the common beginning and the common end of two texts or operations. */
function partsOf(found, ours) {
  const { at, same } = parting(found, ours);
  return [found, ours].map((value) => value.slice(at, value.length - same));
}

/* How a value differs, as a text: the same text means that it differs the same way, whatever else has changed in both. */
function wayOf(found, ours) {
  if (isList(found) && isList(ours) && typeof found === typeof ours) {
    const [one, other] = partsOf(found, ours);
    return JSON.stringify(Array.isArray(one) && one.length === other.length ? one.map((component, i) => apart(component, other[i])) : [one, other]);
  }
  if (!isObject(found) || !isObject(ours)) return JSON.stringify([apart(found, ours)]);
  return ["revision", "operation"].map((key) => (found[key] === undefined ? "" : wayOf(found[key], ours[key]))).join(" ");
}

/** The differences of a port: by place the keys that differ, and did not differ the same way in the line before that has them. */
export class Differences extends Search {
  /** @param {import("../common/printed.mjs").Port} port @param {() => boolean} [isStopped] */
  constructor(port, isStopped) {
    super(port.session.length, isStopped);
    this.port = port;
    this.isOver = false; // the port has stopped: it has no more lines
    this.ways = new Map(); // by participant and key how its last value differed; null where it did not
  }

  /** The keys at a place. @param {number} place @returns {string[]} */
  keysAt(place) {
    return this.at(place) ?? [];
  }

  look(place) {
    if (this.isOver) return undefined;
    const line = this.port.valuesIn(place);
    const differing = line === null || line.stopped !== undefined ? this.port.differencesAt(place).map(({ key }) => key) : this.#fresh(line, place);
    this.isOver = line?.stopped !== undefined;
    return differing.length ? differing : undefined;
  }

  #fresh(line, place) {
    const { moved } = this.port.session.steps[place];
    const found = new Map(this.port.valuesThatDiffer(place).map(({ key, found, ours }) => [key, wayOf(found, ours)]));
    return Object.keys(line).filter((key) => {
      const [name, way] = [`${moved} ${key}`, found.get(key) ?? null];
      const before = this.ways.get(name) ?? null;
      this.ways.set(name, way);
      return way !== null && way !== before;
    });
  }
}
