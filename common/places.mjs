// What a session knows of one place.

import { lastUpTo } from "./document.mjs";
import { SERVER } from "./fold.mjs";

export const stateAt = (session, client, place) => {
  const { states, statePlaces } = session.members[client];
  return states[lastUpTo(statePlaces, place)];
};

export const versionsOf = (session, who) => (who === SERVER ? session.server : session.members[who].versions);

export const documentAt = (session, who, place) => versionsOf(session, who).at(place);

/* How many operations the server has appended. */
export const logLengthAt = (session, place) => lastUpTo(session.logPlaces, place);

/* The message on a client's link to the server, or null. */
export function upAt(session, client, place) {
  const { sent } = session.members[client];
  return sent.find((m) => m.sent <= place && (m.got === null || m.got > place)) || null;
}

/* The entries of the log that are on the link to a client, as { from, to }; its own ones are acknowledgements. */
export function downAt(session, client, place) {
  const { state, revision } = stateAt(session, client, place);
  const to = logLengthAt(session, place);
  return state === "not-joined" ? { from: to, to } : { from: revision, to };
}

/* What can be received at a place: of a client's links the instructions, in order, as { up, down }; up null where there is none. */
export function headsAt(session, client, place) {
  const { from, to } = downAt(session, client, place);
  const down = session.log.slice(from, to).map(({ maker }) => `${maker === client ? "ack" : "deliver"} ${client}`);
  return { up: upAt(session, client, place) ? `take ${client}` : null, down };
}

/* How many of these instructions are receipts of what is on a client's link from the server. */
export const receiptsIn = (instructions, client) =>
  instructions.filter((instruction) => instruction === `deliver ${client}` || instruction === `ack ${client}`).length;

/* What of a client is under way at a place, or null: { client, state } of one that is not synchronized, else { client, count } of its messages. One whose message is under way to the server awaits a confirmation. */
function openOf(session, client, place) {
  const { state } = stateAt(session, client, place);
  if (state === "not-joined") return null;
  if (state !== "synchronized") return { client, state };
  const { from, to } = downAt(session, client, place);
  return from < to ? { client, count: to - from } : null;
}

/** What is under way at a place, of each client that is not quiet there. */
export const openAt = (session, place) =>
  Array.from({ length: session.clients }, (_, client) => openOf(session, client, place)).filter((open) => open !== null);

/* "quiet", or the first thing that is under way, and of how many more clients something is. */
export function quietAt(session, place) {
  const [first, ...more] = openAt(session, place);
  if (first === undefined) return "quiet";
  const { client, state, count } = first;
  const told = state ? `client ${client} is ${state}` : `${count} message${count > 1 ? "s are" : " is"} under way to client ${client}`;
  const others = more.length === 0 ? "" : `; ${more.length} more client${more.length > 1 ? "s are" : " is"} not quiet`;
  return `not quiet: ${told}${others}`;
}
