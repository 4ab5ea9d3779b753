// What an operation of a client is made of: the edits, the deliveries that transformed it, and the acknowledgement at which it was sent.

import { stateAt, upAt } from "../common/places.mjs";
import { shortOperation } from "./values.mjs";

/** The operations of a client of which it is told. */
export const MADE = ["outstanding", "buffer", "message"];

const [MADE_BY, COMPOSED, TRANSFORMED, MADE_AND_SENT, SENT] = ["made by", "composed with", "transformed by", "made and sent by", "sent from the buffer by"];
const CHANGING = [COMPOSED, TRANSFORMED];

/** @typedef {{ how: string, at: number, operation: (number | string)[] }} Part what an instruction did to the operation, the place that it led to, and the operation there */

/** The states of a client up to a place, each with the word of its instruction; the opening's has none. */
function statesUpTo({ steps, members }, client, place) {
  const states = members[client].states.filter(({ at }) => at <= place);
  return states.map((state) => ({ ...state, word: steps[state.at]?.line.do }));
}

/** How many states at the end of a list hold for a condition, one behind the other. */
function countAtEnd(states, holds) {
  const last = states.findLastIndex((state) => !holds(state));
  return states.length - 1 - last;
}

/** The parts of the buffer of the last of these states. @returns {Part[]} */
function partsOfBuffer(states) {
  const own = states.slice(states.length - countAtEnd(states, ({ buffer }) => buffer !== null));
  return own.map(({ word, at, buffer }, i) => ({ how: word === "deliver" ? TRANSFORMED : i === 0 ? MADE_BY : COMPOSED, at, operation: buffer }));
}

/** The parts of the outstanding operation of the last of these states: an edit's that was sent at once, or a buffer's. @returns {Part[]} */
function partsOfOutstanding(states) {
  const behind = countAtEnd(states, ({ outstanding, word }) => outstanding !== null && word !== "ack");
  const sent = states.length - 1 - behind;
  const isOfBuffer = states[sent].outstanding !== null;
  const first = isOfBuffer ? sent : sent + 1;
  const { at, outstanding } = states[first];
  const front = isOfBuffer ? [...partsOfBuffer(states.slice(0, sent)), { how: SENT, at, operation: outstanding }] : [{ how: MADE_AND_SENT, at, operation: outstanding }];
  const later = states.slice(first + 1).filter(({ word }) => word === "deliver");
  return [...front, ...later.map((state) => ({ how: TRANSFORMED, at: state.at, operation: state.outstanding }))];
}

const PARTS = 200; // that are shown: the first half of them, and the last

/* The first and the last lines of many. */
function shortened(lines) {
  if (lines.length <= PARTS) return lines;
  return [...lines.slice(0, PARTS / 2), `  .. ${lines.length - PARTS} more`, ...lines.slice(-PARTS / 2)];
}

const counted = (count, one, more) => `${count} ${count === 1 ? one : more}`;

/** How many edits an operation is made of, and how many deliveries transformed it. @param {Part[]} parts @param {import("./recording.mjs").Recording} recording */
function summaryOf(parts, { session }) {
  const count = (wanted) => parts.filter(({ at }) => session.steps[at].line.do === wanted).length;
  const deliveries = count("deliver");
  return `made of ${counted(count("edit"), "edit", "edits")}${deliveries === 0 ? "" : `, transformed by ${counted(deliveries, "delivery", "deliveries")}`}`;
}

/** A line for a part: an edit with its operation, and what composing or transforming made. */
function lineOf({ how, at, operation }, recording) {
  const { edit } = recording.session.steps[at].line;
  const made = CHANGING.includes(how) ? `, makes ${shortOperation(operation)}` : "";
  return `  ${how} ${recording.leading(at)}${edit === undefined ? "" : ` ${shortOperation(edit)}`}${made}`;
}

/**
 * What made an operation of a client, in lines: none where there is no such operation.
 * @param {import("./recording.mjs").Recording} recording @param {"outstanding" | "buffer" | "message"} what @param {number} client @param {number} place
 */
export function makingOf(recording, what, client, place) {
  const { session } = recording;
  const up = what === "message" ? upAt(session, client, place) : null;
  const operation = what === "message" ? up?.operation : stateAt(session, client, place)[what];
  if (!operation) return ["none"];
  const states = statesUpTo(session, client, up === null ? place : up.sent);
  const parts = what === "buffer" ? partsOfBuffer(states) : partsOfOutstanding(states);
  const head = `client ${client} ${what}: ${shortOperation(operation)}${up === null ? "" : ` of revision ${up.revision}`}`;
  return [`${head}; ${summaryOf(parts, recording)}`, ...shortened(parts.map((part) => lineOf(part, recording)))];
}
