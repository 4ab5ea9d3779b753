// Why the documents have the texts that they have: the last instruction that transformed something, which operations ot.js transformed
// against one another in it, and which text went first where both insert at one position. What was transformed, and by which method, is what
// `conform` says of a port that has another value there.

import { transformsOf, valuesOf } from "../../common/why.mjs";
import { brief, quoted } from "../../common/characters.mjs";
import { logLengthAt, stateAt } from "../../common/places.mjs";
import { instructionOf, nameOfMember } from "./words.mjs";

/** @typedef {{ place: number, rule: string, given: { name: string, value: string }[] }} Reason a method of ot.js, and what it was given; its place is 0 where nothing was transformed */
/** @typedef {(string | { operation: (number | string)[], maker: number })[]} Words a sentence: its operations are values */

/** How many transforms, and how many ties of each, are told. */
const MOST = { transforms: 8, ties: 4 };

/** Whether something was transformed at a place. */
export function isTransform(session, place) {
  const { line, received } = session.steps[place];
  if (line.do === "take") return logLengthAt(session, place - 1) > received.revision;
  return line.do === "deliver" && Boolean(stateAt(session, line.client, place - 1).outstanding);
}

/** The last place up to another at which something was transformed; 0 where nothing was. */
export function lastTransform(session, place) {
  let last = place;
  while (last > 0 && !isTransform(session, last)) last--;
  return last;
}

/** A port's line that differs in what was transformed at a place. */
export const otherLine = (session, place) => JSON.stringify({ at: place, [session.steps[place].line.do === "take" ? "appended" : "applied"]: 0 });

/* What each transform of a place is given: the first argument, which has the first text of a tie, and the second one, each { name, operation, maker }. */
function argumentsOf({ steps, log }, call, transforms) {
  const { line, received } = steps[call.place];
  const given = (wanted) => valuesOf(call, wanted);
  const [operation] = given("operation");
  const before = (i, which) => (i === 0 ? operation : transforms[i - 1][which]);
  if (line.do === "take") {
    const { revision } = received;
    const entry = (other, i) => ({ name: `log entry ${revision + i}`, operation: other, maker: log[revision + i].maker });
    return given("concurrent").map((other, i) => [{ name: "its message", operation: before(i, "first"), maker: line.client }, entry(other, i)]);
  }
  const entry = (i) => ({ name: `log entry ${received.number}`, operation: before(i, "second"), maker: received.maker });
  const pending = ["outstanding", "buffer"].flatMap((name) => given(name).map((value) => ({ name, operation: value, maker: line.client })));
  return pending.map((own, i) => [own, entry(i)]);
}

const tieWords = ({ place, first, second }) =>
  `Both insert ${place === 0 ? "at the start" : `after ${place} character${place > 1 ? "s" : ""}`}: transform puts the text of its first argument first, ${quoted(brief(first, 60))} before ${quoted(brief(second, 60))}.`;

const more = (count) => (count > 0 ? [[`and ${count} more`]] : []);

/**
 * A reason in sentences.
 * @param {import("../../common/fold.mjs").Session} session @param {Reason} reason @param {Map<number, string>} names
 * @returns {Words[]}
 */
export function reasonWords(session, reason, names = new Map()) {
  if (reason.place === 0) return [["Nothing has been transformed up to here."]];
  const transforms = transformsOf(reason, session.log);
  const given = argumentsOf(session, reason, transforms);
  const named = ({ name, operation, maker }) => [{ operation, maker }, ` (${nameOfMember(maker, names)}, ${name})`];
  const told = transforms.slice(0, MOST.transforms).flatMap(({ ties }, i) => {
    const head = i === 0 ? `${instructionOf(session.steps[reason.place].line)}, place ${reason.place}: ${reason.rule} transforms ` : "Then it transforms ";
    const words = [head, ...named(given[i][0]), " against ", ...named(given[i][1]), ties.length ? "." : ". They insert nothing at one position."];
    return [words, ...ties.slice(0, MOST.ties).map((tie) => [tieWords(tie)]), ...more(ties.length - MOST.ties)];
  });
  return [...told, ...more(transforms.length - MOST.transforms)];
}
