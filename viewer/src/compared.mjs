// What the page says of conform's answer: where users' texts are noted, whose text differs first, and of whom none is compared yet.

import { lastUpTo } from "../../common/document.mjs";
import { SERVER } from "../../common/fold.mjs";
import { notedPlace, notesIn } from "../../common/noted.mjs";
import { stateAt, versionsOf } from "../../common/places.mjs";
import { apart, briefApart, nameOfMember, orderWords, placeWords } from "./words.mjs";

/** Of how many clients it is said that no text is compared. */
const MOST = 3;

const capital = (words) => words[0].toUpperCase() + words.slice(1);

const plural = (count, one, more) => (count === 1 ? one : more);

/** Whose last text is not noted: [{ client, upTo }], the last place with a note, 0 where there is none. Those that never join have no text. */
export function notCompared(session, port) {
  const last = new Map();
  for (const { who, at } of notesIn(port)) last.set(who, Math.max(at, last.get(who) ?? 0));
  return [...session.members.keys()]
    .filter((client) => stateAt(session, client, session.length).state !== "not-joined")
    .map((client) => ({ client, upTo: last.get(client) ?? 0 }))
    .filter(({ client, upTo }) => upTo === 0 || upTo < notedPlace(session, client, session.length));
}

/** The same in sentences; nothing where each client's last text is noted. */
export function missingWords(session, port, names) {
  const missing = notCompared(session, port);
  const told = missing.slice(0, MOST).map(({ client, upTo }) => `${capital(nameOfMember(client, names))}: nothing noted ${upTo === 0 ? "yet" : `after place ${upTo}`}.`);
  const more = missing.length - told.length;
  return [...told, ...(more > 0 ? [`The same of ${more} more ${plural(more, "client", "clients")}.`] : [])].join(" ");
}

/** What is compared, where all of it is ot.js'. */
export function comparedWords(port) {
  const count = notesIn(port).length;
  return `ot.js has the ${count} ${plural(count, "text", "texts")} that you noted.`;
}

/* The last place at which a participant has the document that it has at a place. */
function upTo(session, who, place) {
  const { places } = versionsOf(session, who);
  return (places[lastUpTo(places, place) + 1] ?? session.length + 1) - 1;
}

/** Whether an answer is on a text that was noted of a participant. */
const isOfText = ({ verdict, at, key }, session) => verdict === "differs" && key === "document" && Boolean(session.steps[at]);

/** Whose noted text differs, and first at which place. */
export function differsWords({ at, client }, names) {
  const whose = client === null ? "The server’s document" : `${capital(nameOfMember(client, names))}’s editor`;
  return `${whose} differs from ot.js, first at place ${at}`;
}

/* The same in a whole sentence, with what ot.js has and what was noted. */
function differsSentence(session, answer, names, line) {
  const { at, client } = answer;
  const who = client ?? SERVER;
  const [shown, wanted] = briefApart(apart(answer.found, answer.otjs), 300);
  const last = upTo(session, who, at);
  const where = placeWords(session, at, line).replace(`place ${at}`, "");
  const noted = client === null ? `${shown} was noted` : `the editor showed ${shown}`;
  return `${differsWords(answer, names)}${where}: ${last > at ? `from there up to place ${last} ` : ""}ot.js has ${wanted}, and ${noted}.`;
}

/* Places are called so everywhere on the page. */
const withPlace = (head) => head.replace(/^(differs|stopped) at (\d+)/, "$1 at place $2");

/** How many characters of two texts are equal, in words. */
export const equalWords = (count) => (count === 0 ? "they differ from the first character on" : `the first ${count} ${plural(count, "character is", "characters are")} equal`);

/* The values that differ, what follows them, and what ot.js has in another order at the server. */
function valuesOf({ answer, words }, names) {
  const [theirs, wanted] = apart(answer.found, answer.otjs);
  const more = answer.place === undefined ? words.slice(3) : [equalWords(answer.place), ...words.slice(4)];
  const { now, other } = answer.order ? orderWords(answer.order, names) : {};
  const ordered = now ? [`ot.js ${wanted}, since the server took ${now} first`, `ot.js ${theirs}, if it had taken ${other} first`] : [`ot.js ${wanted}`];
  return [`found ${theirs}`, ...ordered, ...more];
}

/**
 * What conform answered, in lines; the first one says what is so. None where its verdict says all.
 * @param {object} given
 * @param {import("../../common/fold.mjs").Session} given.session
 * @param {string[]} given.port
 * @param {import("../../common/printed.mjs").Port} given.beside
 * @param {Map<number, string>} given.names
 * @param {number} [given.line] the line of the place, in the text
 */
export function answerLines({ session, port, beside, names, line }) {
  const { answer, words, areNotes } = beside;
  if (areNotes && answer?.verdict === "conforms") return [comparedWords(port), missingWords(session, port, names), ...words.slice(1)].filter(Boolean);
  if (answer?.verdict !== "differs") return words.length ? words.with(0, withPlace(words[0])) : [];
  const isNoted = areNotes && isOfText(answer, session);
  const head = isNoted ? [differsSentence(session, answer, names, line), missingWords(session, port, names)] : [withPlace(words[0])];
  return [...head, ...valuesOf(beside, names)].filter(Boolean);
}

/**
 * The short form of it, in parts: { words, look } with `good` of what is so, `bad` of what is not, and nothing of what is open.
 * @param {object} given the same
 */
export function answerParts({ session, port, beside, names, line }) {
  const { answer, words, areNotes, first } = beside;
  const where = line ? ` (line ${line})` : "";
  if (areNotes && answer?.verdict === "conforms") {
    const missing = missingWords(session, port, names);
    return [{ words: comparedWords(port), look: "good" }, ...(missing ? [{ words: ` ${missing}`, look: "" }] : [])];
  }
  if (areNotes && answer && isOfText(answer, session)) return [{ words: differsWords(answer, names) + where, look: "bad" }];
  const isGood = answer === null ? first === null : answer.verdict === "conforms";
  const those = areNotes ? "what was seen" : "the port's lines";
  const marked = first === null ? `${those}: no difference` : `${those}: a difference at place ${first}`;
  return [{ words: withPlace(words[0] ?? answer?.verdict ?? marked) + where, look: isGood ? "good" : "bad" }];
}
