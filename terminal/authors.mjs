// Who inserted a character, when, and how it came to a document; and what two documents have in common. The authors are otbench's; the way of a character is read off the
// elements of the fold: one insertion is one element in every document.

import { SERVER } from "../common/fold.mjs";
import { documentAt, stateAt } from "../common/places.mjs";
import { shortOperation, shortText } from "./values.mjs";

const nameOf = (who) => (who === SERVER ? "the server" : `client ${who}`);
const madeBy = (author) => (author === null ? "the start text" : `client ${author.client}, instruction ${author.instruction}`);

/** The way of an element into a document, up to a place: a line for the edit, which is its author, the message, the log's entry, the delivery. */
function wayOf(recording, { client: maker, instruction }, element, who, place) {
  const { members, log, messages } = recording.session;
  const has = ({ elements }) => elements.includes(element);
  const at = (led) => recording.leading(led);
  const way = [`inserted by client ${maker}: ${at(instruction + 1)}`];
  const sent = members[maker].sent.find((message) => message.sent <= place && has(message));
  if (sent && sent.sent !== instruction + 1) way.push(`sent from the buffer: ${at(sent.sent)}`);
  const entry = log.find((it) => it.sent <= place && has(it));
  if (entry) way.push(`taken by the server as revision ${entry.number + 1}: ${at(entry.sent)}`);
  if (who === SERVER || who === maker || !entry) return way;
  const delivered = messages.find(({ kind, client, number, got }) => kind === "down" && client === who && number === entry.number && got <= place);
  if (delivered) way.push(`delivered to client ${who}: ${at(delivered.got)}`);
  else way.push(`client ${who} has it since it joined: ${at(recording.session.members[who].statePlaces[1])}`);
  return way;
}

/**
 * Who inserted the character at an index of a document, and how it came there.
 * @param {import("./recording.mjs").Recording} recording @param {number | "server"} who @param {number} index @param {number} place
 */
export function whoIs(recording, who, index, place) {
  const { document, spans } = recording.authors(who, place);
  const { author } = spans.findLast(({ from }) => from <= index);
  const head = `${JSON.stringify(document[index])} at ${index} of the document of ${nameOf(who)}`;
  if (author === null) return [`${head}: of the start text`];
  return [head, ...wayOf(recording, author, documentAt(recording.session, who, place)[index], who, place).map((line) => `  ${line}`)];
}

/** A document in spans of one author, a line for each; of the characters from one up to another, if these are given. */
export function authorsOf(recording, who, place, first = 0, end = Infinity) {
  const { document, spans } = recording.authors(who, place);
  const within = spans.filter(({ from, count }) => from < end && from + count > first);
  return within.map(({ from, count, author }) => `${shortText(document.slice(Math.max(from, first), Math.min(from + count, end)).join(""))}  ${madeBy(author)}`);
}

/**
 * The operation that leads from one list of elements to another, which has the common ones in the same order: a retain is a count, an insertion a text, a deletion a
 * negative count; insertions stand before deletions.
 */
export function between(before, after) {
  const [old, fresh] = [new Set(before), new Set(after)];
  const parts = [];
  const add = (kind, text) => (parts.at(-1)?.kind === kind ? (parts.at(-1).text += text) : parts.push({ kind, text }));
  let [i, j] = [0, 0];
  while (i < before.length || j < after.length) {
    if (j < after.length && !old.has(after[j])) add("insert", after[j++].character);
    else if (i < before.length && !fresh.has(before[i])) add("delete", before[i++].character);
    else if (before[i] === after[j]) add("retain", (j++, before[i++].character));
    else return null;
  }
  return parts;
}

const CHANGES = 40; // of a difference that are shown

/** A difference of two documents in words: the operation, and what it deletes and inserts. */
export function differenceOf(before, after) {
  const parts = between(before, after);
  if (parts === null) return ["the characters that stand in both are in another order"];
  if (parts.every(({ kind }) => kind === "retain")) return ["the same characters"];
  const length = (text) => [...text].length;
  const component = { insert: (text) => text, delete: (text) => -length(text), retain: length };
  const lines = [];
  let place = 0;
  for (const { kind, text } of parts) {
    if (kind !== "retain") lines.push(`  at ${place}: ${kind === "insert" ? "+" : "-"} ${shortText(text)}`);
    if (kind !== "delete") place += length(text);
  }
  const more = lines.length - CHANGES;
  const shown = more > 0 ? [...lines.slice(0, CHANGES), `  .. ${more} more of ${lines.length} changes`] : lines;
  return [shortOperation(parts.map(({ kind, text }) => component[kind](text))), ...shown];
}

/** Whether a client has a document at a place. */
export const hasDocument = ({ session }, who, place) => who === SERVER || stateAt(session, who, place).state !== "not-joined";
