// The conditions of breaks: `doc 0 contains "x"`, `not state 1 is synchronized`.

import { Complaint, Interrupted } from "./commands.mjs";
import { subjectOf, textOf } from "./subjects.mjs";

/** @typedef {{ isNot: boolean, subject: import("./subjects.mjs").Subject, verb: string, wanted: string }} Condition */

const VERBS = ["contains", "is"];

/** @param {string[]} words behind `if` @param {number} clients @returns {Condition} */
export function conditionOf(words, clients) {
  const isNot = words[0] === "not";
  const given = isNot ? words.slice(1) : words;
  const at = given.findIndex((word) => VERBS.includes(word));
  if (at < 0) throw new Complaint("a condition is a value, contains or is, and a text");
  if (given.length !== at + 2) throw new Complaint(given.length > at + 2 ? `${given[at + 2]} is a word too many` : `${given[at]} takes a text`);
  const subject = subjectOf(given.slice(0, at), clients);
  return { isNot, subject, verb: given[at], wanted: textOf(given[at + 1]) };
}

/** Whether a condition holds in a place. A client that has not joined has no document, which has no text and is none. */
function holdsAt(recording, { isNot, subject, verb, wanted }, place) {
  const value = recording.value(subject, place);
  const isDocument = subject.what === "doc" && value !== "none";
  const text = isDocument ? JSON.parse(value) : value;
  const holds = verb === "is" ? text === wanted : text.includes(wanted);
  return (holds && (isDocument || subject.what !== "doc")) !== isNot;
}

/**
 * Whether a condition holds, by place. It is looked at again only where its value may have changed, if the places are asked in their order. A person may end that.
 * @param {import("./recording.mjs").Recording} recording @param {Condition} condition @returns {boolean[]}
 */
export function holdingOf(recording, condition) {
  const holding = [holdsAt(recording, condition, 0)];
  for (let p = 1; p <= recording.end; p++) {
    if (recording.isStopped()) throw new Interrupted("interrupted; no break is set");
    holding.push(recording.mayChange(condition.subject, p) ? holdsAt(recording, condition, p) : holding[p - 1]);
  }
  return holding;
}
