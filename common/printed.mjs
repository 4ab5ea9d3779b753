// What a port printed, beside the lines of `steps`: its lines are read in order, as `otbench conform` reads them.

import { lastUpTo, textOf } from "./document.mjs";
import { SERVER } from "./fold.mjs";
import { valueIn } from "./json.mjs";
import { areNotes, notedPlace } from "./noted.mjs";
import { documentAt, logLengthAt, stateAt } from "./places.mjs";

const KEYS = ["at", "do", "client", "message", "edit", "revision", "state", "outstanding", "buffer", "sent", "applied", "appended", "document"];

/** Keys of values that a participant keeps; the others are of one instruction. */
const LASTING = new Set(["revision", "state", "outstanding", "buffer", "document"]);

/** No session has as many places. */
const MOST = 200_000;

const isOpening = (line) => line.at === 0 && !("do" in line) && !("stopped" in line) && !("end" in line);

/* A line as an object; what is no object of JSON, such as a stack trace, is kept as { text }: it stands for the instruction at which it was printed. */
function readLine(text) {
  const line = valueIn(text);
  return line && typeof line === "object" && Number.isInteger(line.at) ? line : { text };
}

/* What the recorder's last line {"cut":".."} says of why its lines end before its logs do; null where there is none. */
function cutIn(texts) {
  const { cut } = valueIn(texts[texts.length - 1] ?? "null") ?? {};
  return typeof cut === "string" ? cut : null;
}

/* What was taken from a client, or delivered to one; undefined where no operation came. */
function messageOf({ do: word }, received) {
  if (word === "take") return { revision: received.revision, operation: received.operation };
  return word === "deliver" ? received.operation : undefined;
}

/* The values that ot.js has at a place, by the keys that a port prints; the document only where one is wanted. */
function valuesAt(session, place, hasDocument) {
  const { line, moved, received } = session.steps[place];
  const message = messageOf(line, received);
  const document = hasDocument ? textOf(documentAt(session, moved, place)) : undefined;
  if (moved === SERVER) return { ...line, message, revision: logLengthAt(session, place), document };
  const { revision, state, outstanding, buffer } = stateAt(session, moved, place);
  const applied = line.do === "edit" ? line.edit : line.applied;
  return { ...line, message, applied, revision, state, outstanding, buffer, document };
}

/* Values are equal as JSON values; null says that there is none. A message's parts are compared where they are printed. */
function sameValue(found, ours) {
  if (found === null || ours === null || ours === undefined) return found === null && (ours === null || ours === undefined);
  if (typeof found !== "object" || typeof ours !== "object") return found === ours;
  if (Array.isArray(found) || Array.isArray(ours)) return JSON.stringify(found) === JSON.stringify(ours);
  return ["revision", "operation"].every((key) => found[key] === undefined || sameValue(found[key], ours[key]));
}

const inWords = (value) => (value === null || value === undefined ? "none" : JSON.stringify(value));

/* The line of each place; of lines that stand at some places only, by what they say. */
function linesByPlace(lines, isSparse) {
  if (!isSparse) return lines.length && isOpening(lines[0]) ? lines : [null, ...lines];
  const placed = [];
  for (const line of lines) if (line.at >= 0 && line.at < MOST && line.end === undefined && line.stopped === undefined) placed[line.at] = line;
  return placed;
}

export class Port {
  /**
   * @param {import("./conformance.mjs").Told | null} told what conform answers; null where it was not asked
   * @param {boolean} isSparse whether instructions without a line are skipped
   */
  constructor(session, texts, told, isSparse = false) {
    this.session = session;
    this.areNotes = areNotes(texts);
    this.isSparse = isSparse || this.areNotes;
    const read = texts.map(readLine);
    this.lines = linesByPlace(read, this.isSparse);
    this.stopped = (this.isSparse && read.find(({ stopped }) => stopped !== undefined)) || null; // a line that is of no place's values
    this.memo = new Map();
    this.moves = new Map([SERVER, ...session.members.keys()].map((who) => [who, [0]]));
    session.steps.forEach((step, place) => step && this.lines[place] && this.lines[place].end === undefined && this.moves.get(step.moved).push(place));
    this.last = Math.max(...[...this.moves.values()].map((places) => places.at(-1))); // the last place that has a line
    this.answer = told?.answer ?? null;
    this.words = told?.words ?? [];
    this.cut = cutIn(texts);
    this.first = this.#first();
  }

  /* The place that conform names, else the first one with a difference that is seen here; null where there is none. */
  #first() {
    if (this.answer) return this.answer.verdict === "differs" ? this.answer.at : null;
    for (let place = 1; place <= this.session.length; place++) if (this.differencesAt(place).length) return place;
    return null;
  }

  /* Where the port's line at a place differs: [{ key, found, ours }], the values as texts. */
  differencesAt(place) {
    if (!this.memo.has(place)) this.memo.set(place, this.#compare(place));
    return this.memo.get(place);
  }

  #compare(place) {
    const line = this.lines[place];
    if (place === 0 || place > this.session.length || (this.isSparse && !line)) return [];
    if (!line || line.end !== undefined) return place === this.lines.length ? [{ key: "line", found: "nothing", ours: "a line" }] : [];
    if (line.text !== undefined) return [{ key: "line", found: inWords(line.text), ours: "a line of JSON" }];
    const differences = this.valuesThatDiffer(place).map(({ key, found, ours }) => ({ key, found: inWords(found), ours: inWords(ours) }));
    return line.stopped === undefined ? differences : [...differences, { key: "stopped", found: inWords(line.stopped), ours: "performed" }];
  }

  /** The values that a line of the port has and ot.js does not: [{ key, found, ours }]. None where there is no such line. @param {number} place */
  valuesThatDiffer(place) {
    const line = this.valuesIn(place);
    if (line === null) return [];
    const ours = valuesAt(this.session, place, line.document !== undefined);
    const keys = line.stopped === undefined ? KEYS : ["message"];
    return keys.filter((key) => line[key] !== undefined && !sameValue(line[key], ours[key])).map((key) => ({ key, found: line[key], ours: ours[key] }));
  }

  /** The port's line of the instruction that leads to a place, as an object; null where it has none. @param {number} place */
  valuesIn(place) {
    const line = this.lines[place];
    return place > 0 && place <= this.session.length && line && line.text === undefined && line.end === undefined ? line : null;
  }

  /**
   * The documents that the port printed, in the order of their places: whose each is, what the port printed of it before, or the opening's text, and what it printed.
   * @returns {{ at: number, who: number | string, before: string, after: string }[]}
   */
  get documents() {
    const { present, start, steps, members } = this.session;
    const opening = typeof this.lines[0]?.start === "string" ? this.lines[0].start : start;
    const last = new Map([SERVER, ...members.keys()].map((who) => [who, who === SERVER || who < present ? opening : ""]));
    return steps.flatMap((step, at) => {
      const { document, stopped, end } = (step && this.lines[at]) || {};
      if (typeof document !== "string" || stopped !== undefined || end !== undefined) return [];
      const before = last.get(step.moved);
      last.set(step.moved, document);
      return [{ at, who: step.moved, before, after: document }];
    });
  }

  /** What was noted of a participant, with the document that it has at the place: { document, differences }, and `order` where conform's answer on it has one; null where nothing was. */
  noteOf(who, place) {
    const at = this.areNotes ? notedPlace(this.session, who, place) : 0;
    const line = this.lines[at];
    if (at === 0 || !line || (line.client ?? SERVER) !== who) return null;
    const order = this.answer?.at === at ? this.answer.order : undefined;
    return { document: line.document, differences: this.differencesAt(at), ...(order && { order }) };
  }

  /* What the port printed last of a participant that is not what ot.js has. */
  differencesOf(who, place) {
    return this.differencesAt(this.placeOf(who, place));
  }

  /** Whether a value of the line of a place is told as an earlier one at another place: it does not last, or the port has no line there any more. */
  isEarlier(key, at, place) {
    return at < place && (place > this.last || !LASTING.has(key));
  }

  /** The last place up to this one that has a line of a participant; 0 where there is none. */
  placeOf(who, place) {
    const places = this.moves.get(who);
    return places[lastUpTo(places, place)];
  }

  /**
   * What the port printed last of a participant by a key, up to a place: { at, value }, the value null where there is none; null where it has not printed it.
   * @param {number | "server"} who @param {string} key @param {number} place
   */
  printedOf(who, key, place) {
    const at = this.moves.get(who).findLast((p) => p <= place && Object.hasOwn(this.valuesIn(p) ?? {}, key));
    return at === undefined ? null : { at, value: this.valuesIn(at)[key] };
  }
}
