// What to do next with a report that two users saw different texts: it follows the state of the session and of what was noted.

import { SERVER } from "../../common/fold.mjs";
import { notedPlace, notesIn } from "../../common/noted.mjs";
import { quietAt } from "../../common/places.mjs";
import { notCompared } from "./compared.mjs";
import { shownPlace } from "./state.mjs";
import { nameOfMember, orderWords } from "./words.mjs";

/* Whether a participant's document is its last one at the place: what was seen of it at the end is noted there. */
const isLast = (who, { session, place }) => notedPlace(session, who, place) === notedPlace(session, who, session.length);

/* Whose text is entered next, and where. */
function ofNext({ client }, given) {
  const enter = isLast(client, given) ? "enter what its editor showed at the end" : "go to the end (▶|), and enter what its editor showed there";
  return `Next is ${nameOfMember(client, given.names)}: ${enter}, at I saw … on its card.`;
}

/* The first client without a note, while fewer than two clients have one: two users saw different texts. */
function secondClient({ session, port }) {
  const noted = new Set(notesIn(port).map(({ who }) => who));
  noted.delete(SERVER);
  return noted.size < 2 ? notCompared(session, port).find(({ client }) => !noted.has(client)) : undefined;
}

/* Whether a client's text at a place has something that the server sent. */
const hasReceived = ({ steps }, client, place) => steps.some((step, at) => at <= place && step?.moved === client && /^(join|deliver)$/.test(step.line.do));

/* Whether the server may have taken or sent something else: no note says what its document was when a client's text differed, or later. */
function isServerOpen({ session, port }, { at, client }) {
  const from = notedPlace(session, SERVER, at);
  return client !== null && hasReceived(session, client, at) && !notesIn(port).some((note) => note.who === SERVER && note.at >= from);
}

/* Of a text that differs: where to look. */
function ofOtherPlace({ at }, isOpen, given) {
  if (isOpen && isLast(SERVER, given)) return `The server may be the cause: enter what its document showed, at I saw … on its card. Not known? Go to place ${at}, where it differs first.`;
  return `Go to place ${at}, where it differs first: a click on the answer, or the key d.`;
}

/* Where it differs, and the other order at the server gives what was seen. */
function ofOrder({ client, order }, isOpen, given) {
  const seen = isLast(SERVER, given) ? "the server’s text, at I saw … on its card" : "the server’s text at the end (▶|), at I saw …";
  const otherwise = isOpen ? `Not known? Enter ${seen}.` : `Else the ${client === null ? "server" : "editor"} is wrong: ask Why?, then Copy for an issue.`;
  return `Did the server take ${orderWords(order, given.names).other} first? Then let it through first. ${otherwise}`;
}

/* Of a text that differs: whose is to be noted yet, where to look, then what to do. */
function ofDifference(answer, given) {
  const next = secondClient(given);
  if (next) return ofNext(next, given);
  const isOpen = isServerOpen(given, answer);
  if (given.place !== answer.at) return ofOtherPlace(answer, isOpen, given);
  if (answer.order) return ofOrder(answer, isOpen, given);
  if (!isOpen) return "Why? says what ot.js did here. Copy for an issue copies all of it.";
  const enter = isLast(SERVER, given) ? "enter what its document showed" : "go to the end (▶|), and enter its text";
  return `The server may be the cause: ${enter}, at I saw … on its card. Not known? Ask Why?, then Copy for an issue.`;
}

/* Of texts that agree: whose is to be noted. */
function ofAgreement(given) {
  const [next] = notCompared(given.session, given.port);
  if (next) return ofNext(next, given);
  return "No editor differs from ot.js here. Did users see something else? Then an edit or the order is another one: compare them with the report.";
}

/**
 * The next step, in words; nothing where the session was not begun with what users typed and nothing is noted in it.
 * @param {import("./state.mjs").State} state
 */
export function hintOf(state) {
  const { session, port, beside, outline, fault, isGuided } = state;
  const notes = notesIn(port);
  if (!session || fault || !(isGuided || notes.length > 0)) return "";
  const place = shownPlace(state);
  if (notes.length > 0) {
    if (!beside?.answer) return "What you noted is being compared …";
    const given = { session, port, place, names: outline.names };
    const { verdict } = beside.answer;
    if (verdict === "differs") return ofDifference(beside.answer, given);
    if (verdict === "conforms") return ofAgreement(given);
  }
  if (!session.steps.some((step) => step?.line.do === "edit")) return "Type what each user typed into their document, on its card.";
  if (quietAt(session, place) !== "quiet") return "Let the messages through in their order: click the first one of a link. Did an editor show another text? Enter it at I saw …";
  return "All messages have arrived here. Enter what each editor showed: at I saw … on its card.";
}
