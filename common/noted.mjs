// What users saw in their editors, and what the server's document was seen to be, noted at places of the session: lines
//
//     {"at":7,"client":0,"document":".."}
//     {"at":4,"do":"take","document":".."}     of the server, at a take or a read-server
//
// beside it, as those of a port, which `conform --sparse` compares. A note stands at the instruction at which the document last changed, up to the place.

import { lastUpTo } from "./document.mjs";
import { SERVER } from "./fold.mjs";
import { trimmed } from "./input.mjs";
import { valueIn } from "./json.mjs";
import { versionsOf } from "./places.mjs";

const OF_CLIENT = "at,client,document";
const OF_SERVER = "at,do,document";

const isOfServer = (word) => word === "take" || word === "read-server";

/** @typedef {{ at: number, who: number | string, word?: string, document: string }} Note whose document it is, a client's or the server's; of the server's the instruction's word */

/* A line as a note; null where it is none. */
function readNote(line) {
  const note = valueIn(line);
  if (note === null || typeof note !== "object" || !Number.isInteger(note.at) || typeof note.document !== "string") return null;
  const { at, client, do: word, document } = note;
  const keys = Object.keys(note).join();
  if (keys === OF_CLIENT && Number.isInteger(client)) return { at, who: client, document };
  return keys === OF_SERVER && isOfServer(word) ? { at, who: SERVER, word, document } : null;
}

const lineOf = ({ at, who, word, document }) => JSON.stringify(who === SERVER ? { at, do: word, document } : { at, client: who, document });

const read = new WeakMap(); // a port's lines are looked at again with each place that is shown

/* A port's lines as notes; null where one is none. */
function readNotes(port) {
  if (port === null || port.length === 0) return null;
  if (!read.has(port)) {
    const other = port.findIndex((line) => readNote(line) === null);
    read.set(port, other < 0 ? port.map(readNote) : null);
  }
  return read.get(port);
}

/** Whether all lines of a port are notes. */
export const areNotes = (port) => readNotes(port) !== null;

/** Whether something can be noted: a port's own lines are left as they are. */
export const canNote = (port) => port === null || areNotes(port);

/** The notes of a port's lines; none where they are others. @returns {Note[]} */
export const notesIn = (port) => readNotes(port) ?? [];

/** The place that a note of a participant stands at: that at which its document last changed, else that of a read; 0 where it has none. */
export function notedPlace(session, who, place) {
  const { places } = versionsOf(session, who);
  const changedAt = places[lastUpTo(places, place)];
  return changedAt > 0 ? changedAt : Math.max(0, session.steps.findLastIndex((step, at) => at <= place && step?.moved === who));
}

/** What is noted of a participant at a place of its own; null where nothing is. */
export const noteAt = (port, who, at) => notesIn(port).find((note) => note.who === who && note.at === at)?.document ?? null;

/** The lines with a note, in the order of places; a document of null takes the note away. null where none is left. @param {string[] | null} port @param {Note} note */
export function withNote(port, { at, who, word, document }) {
  const others = notesIn(port).filter((note) => note.at !== at);
  const notes = document === null ? others : [...others, { at, who, word, document }];
  return notes.length ? notes.sort((a, b) => a.at - b.at).map(lineOf) : null;
}

/* The instructions of a text, and the places of those that a participant performs. */
function instructionsOf(text, { lines }) {
  const all = text.split("\n");
  const own = new Map();
  lines.forEach((line, i) => {
    const [word, client = ""] = trimmed(all[line]).split(/[ \t]+/);
    const who = isOfServer(word) ? SERVER : Number(client);
    if (!own.has(who)) own.set(who, []);
    own.get(who).push({ place: i + 1, words: trimmed(all[line]) });
  });
  return own;
}

/* How many items at the front of two lists are the same. */
function commonFront(one, other) {
  let count = 0;
  while (count < Math.min(one.length, other.length) && one[count].words === other[count].words) count++;
  return count;
}

/**
 * The notes of a text beside another one: each stands at the same instruction of its participant, up to the first that is another one and behind the last.
 * One at an instruction that is gone goes with it.
 */
export function carriedNotes(port, before, after) {
  if (!areNotes(port)) return port;
  const [old, fresh] = [instructionsOf(before.text, before.outline), instructionsOf(after.text, after.outline)];
  const carried = notesIn(port).flatMap((note) => {
    const [from, to] = [old.get(note.who) ?? [], fresh.get(note.who) ?? []];
    const index = from.findIndex(({ place }) => place === note.at);
    const front = commonFront(from, to);
    const back = Math.min(commonFront(from.toReversed(), to.toReversed()), Math.min(from.length, to.length) - front);
    if (index < 0) return [];
    if (index < front) return [{ ...note, at: to[index].place }];
    return index >= from.length - back ? [{ ...note, at: to[index + to.length - from.length].place }] : [];
  });
  return carried.length ? carried.sort((a, b) => a.at - b.at).map(lineOf) : null;
}
