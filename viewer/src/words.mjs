// Operations and instructions in words.

import { brief, isUnseen, quoted, seen } from "../../common/characters.mjs";
import { colourOf } from "./theme.mjs";
import { SERVER } from "../../common/fold.mjs";
import { parting } from "../../common/parting.mjs";
import { logLengthAt, openAt, stateAt } from "../../common/places.mjs";
import { tree } from "./tree.mjs";

/* A text with code points for the characters that are not seen, and for those from..to that are not of ASCII. */
const coded = (text, from, to) =>
  [...text]
    .map((character, i) => {
      const isCoded = isUnseen(character) || (i >= from && i < to && !/[ -~]/.test(character));
      return isCoded ? `\\u{${character.codePointAt(0).toString(16)}}` : character;
    })
    .join("");

/* What a reader sees of a text. */
const looks = (text) => text.normalize("NFKC").replace(/[\p{Cc}\p{Cf}\p{Zl}\p{Zp}\p{Variation_Selector}]/gu, "");

/* Two texts that differ, with code points for characters that are not seen; where they look the same, for all in which they differ. */
export function apart(found, ours) {
  if (looks(found) !== looks(ours)) return [found, ours].map((text) => coded(text, 0, 0));
  const [a, b] = [[...found], [...ours]];
  const { at, same } = parting(a, b);
  return [coded(found, at, a.length - same), coded(ours, at, b.length - same)];
}

/** How many characters of a long text are shown in front of where it differs. */
const AROUND = 30;

/** Two texts that differ, each in at most so many characters: of long ones what stands around the first character that differs. @param {[string, string]} texts */
export function briefApart(texts, most) {
  const [one, other] = texts.map((text) => [...text]);
  const { at } = parting(one, other);
  const from = at < most - AROUND ? 0 : at - AROUND;
  return [one, other].map((all) => (from > 0 ? `…${brief(all.slice(from).join(""), most - 1)}` : brief(all.join(""), most)));
}

/* An operation in at most n characters: its insertions are shortened first. */
export function operationText(operation, n) {
  for (const kept of [60, 12, 6]) {
    const text = shortened(operation, kept);
    if (text.length <= n) return text;
  }
  return brief(shortened(operation, 3), n);
}

const shortened = (operation, kept) =>
  `[${operation.map((x) => (typeof x === "string" ? quoted(brief(x, kept)) : x)).join(",")}]`;

/** An operation, of a long one the first components. */
export function shownOperation(operation, maker) {
  const component = (x) => {
    if (typeof x === "number") return tree("span", { class: x < 0 ? "delete" : "retain" }, x);
    return tree("span", { class: "insert" }, quoted(brief(x, 60)));
  };
  const shown = operation.slice(0, 60).map(component);
  if (operation.length > 60) shown.push(`… ${operation.length - 60} more`);
  const joined = shown.flatMap((part, i) => (i ? [",", part] : [part]));
  return tree("code", { class: "operation", style: `--maker:${colourOf(maker)}` }, "[", joined, "]");
}

export const instructionOf = (line) => (line.client === undefined ? line.do : `${line.do} ${line.client}`);

/** A place as the page names it: how many instructions have been performed, the last of them, and its line in the text where that is known. */
export function placeWords(session, place, line) {
  const last = place === 0 ? "the opening" : `after ${instructionOf(session.steps[place].line)}`;
  return `place ${place}, ${last}${line ? ` (line ${line})` : ""}`;
}

/** Whether all messages have arrived at a place, in words; of those that have not the first, and how many more clients wait. */
export function arrivedWords(session, place) {
  const [first, ...more] = openAt(session, place);
  if (!first) return "All messages have arrived";
  const { client, state, count } = first;
  const what = state ? `client ${client} awaits a confirmation` : `${count} message${count > 1 ? "s are" : " is"} under way to client ${client}`;
  return `Not all messages have arrived: ${what}${more.length ? `; ${more.length} more client${more.length > 1 ? "s wait" : " waits"}` : ""}`;
}

const MOST_OF_VALUE = 200; // characters that are shown

/** A value as it is printed. */
export const shownValue = (value) => tree("code", {}, brief(value, MOST_OF_VALUE));

/** Two values that differ, as they are printed: of long ones what stands around the first character that differs. */
export const shownApart = (found, ours) => briefApart(apart(found, ours), MOST_OF_VALUE).map(shownValue);

const shownText = (text) => tree("code", {}, quoted(brief(text, 80)));

/* A participant in words, with the name that it has. */
export const nameOfMember = (who, names = new Map()) => {
  if (who === SERVER) return "server";
  return names.has(who) ? `client ${who} (${shortName(names.get(who))})` : `client ${who}`;
};

/** A name that is not of the page, in so few characters that it has room. */
export const shortName = (name) => brief(seen(name), 40);

/** One sentence on what led to a place, as trees and texts. */
export function sentence(session, place, names = new Map()) {
  if (place === 0) {
    const { present, clients, start } = session;
    return [tree("b", {}, "the opening"), `: ${present} of ${clients} clients joined, every document is `, shownText(start), "."];
  }
  const step = session.steps[place];
  const called = (client) => nameOfMember(client, names);
  return [tree("b", {}, instructionOf(step.line)), ": ", PHRASES[step.line.do](session, step, place, called), "."];
}

const AGAINST = {
  synchronized: "",
  "awaiting-confirm": "transformed against the outstanding operation, ",
  "awaiting-with-buffer": "transformed against the outstanding operation and the buffer, ",
};

const PHRASES = {
  edit(session, { line, sent }, place, called) {
    const before = stateAt(session, line.client, place - 1).state;
    const then = sent
      ? `it is sent at revision ${sent.revision}`
      : before === "awaiting-confirm" || !line.buffer
        ? "it becomes the buffer"
        : ["it is composed into the buffer ", shownOperation(line.buffer, line.client)];
    return [`the user of ${called(line.client)} edits `, shownOperation(line.edit, line.client), "; ", then];
  },
  take(session, { line, received }, place, called) {
    const concurrent = logLengthAt(session, place - 1) - received.revision;
    const over = concurrent ? `, transforms it over ${concurrent} concurrent operation${concurrent > 1 ? "s" : ""}` : "";
    const taken = ["the server takes ", shownOperation(received.operation, line.client), ` of ${called(line.client)}, made at revision ${received.revision}`];
    return [taken, over, ", and appends ", shownOperation(line.appended, line.client), ` as log entry ${line.revision - 1}`];
  },
  deliver(session, { line, received }, place, called) {
    const { number, maker, operation } = received;
    const against = AGAINST[stateAt(session, line.client, place - 1).state];
    const entry = [`log entry ${number} of ${called(maker)}, `, shownOperation(operation, maker)];
    return [`${called(line.client)} takes `, entry, `; ${against}it applies `, shownOperation(line.applied, maker)];
  },
  ack(session, { line, sent }, place, called) {
    const then = sent
      ? ["its buffer ", shownOperation(sent.operation, line.client), ` is sent at revision ${sent.revision}`]
      : "it is synchronized";
    return [`the outstanding operation of ${called(line.client)} is confirmed; `, then];
  },
  join: (session, { line }, place, called) => `${called(line.client)} joins with the server’s document and revision ${line.revision}`,
  read: (session, { line }) => ["shows ", shownText(line.document)],
  "read-server": (session, { line }) => ["shows ", shownText(line.document)],
};

/** How the verdict on a session's end looks, and what stands in front of it: of a text with a fault the picture is that of the text before. */
export function verdictOn({ session, fault, isLate = false }) {
  if (fault || isLate) return { front: "the text before: ", look: "" };
  return { front: "", look: session.stop ? "bad" : session.end === "quiet" ? "good" : "" };
}

/**
 * What conform answered, as data: its verdict, and of a difference the place, the key and whose value it is, `server` or a client's number. The verdict is
 * `none` where nothing stands beside the session, `awaited` where the answer is not there yet, and `unanswered` where the page has none of the program's. `order`
 * are the clients whose edits the server would have to take in this order, so that ot.js has what was noted.
 */
export function answerData({ port, beside }) {
  if (!beside) return { verdict: port === null ? "none" : "awaited" };
  const { verdict, at, client, key, order } = beside.answer ?? { verdict: "unanswered" };
  if (verdict !== "differs") return { verdict };
  return { verdict, at, client: client ?? (client === null ? SERVER : undefined), key, ...(order && { order: `${order.first} ${order.then}` }) };
}

/** Whose edit the server took first, and whose it takes first in the other order. */
export const orderWords = ({ first, then }, names) => ({ now: `${nameOfMember(then, names)}’s edit`, other: `${nameOfMember(first, names)}’s edit` });

/** What conform's answer says of a note, in words. @param {import("../../common/conformance.mjs").Told | null} told @param {Map<number, string>} names */
export function noteWords(told, names = new Map()) {
  if (!told?.answer) return "The text has a fault: mend it first.";
  const { verdict, client, found, otjs, note, order } = told.answer;
  if (verdict === "conforms") return "ot.js has the same text here.";
  if (verdict !== "differs") return told.words[0];
  const [shown, wanted] = briefApart(apart(found, otjs), 300);
  const seen = client === null ? "the server" : "the editor";
  const both = shown === found && wanted === otjs ? "" : `, and ${seen} ${shown}`;
  const other = order && orderWords(order, names);
  const ordered = other ? ` here, since the server took ${other.now} first${both}. With the other order, ${other.other} first, it would have ${shown}.` : ` here${both}.`;
  return `ot.js has ${wanted}${ordered}${note ? ` Of ${seen}’s text: ${note}.` : ""}`;
}
