/* What is said of a session over which a port fails, in 60 lines at most. */

import { AssertionError } from "node:assert";
import { writeFileSync } from "node:fs";
import { placeTold } from "../common/numbering.mjs";
import { behindOnLink } from "./link.mjs";
import { valuesOf, withOneUnitEach } from "../common/schedule.mjs";
import { isOfTheWay, saidOf, sessionsOf } from "./verdict.mjs";

const MOST_LINES = 60;
const MOST_WIDTH = 300; // characters of a line
const BESIDE = 40; // characters that are shown on each side of the first difference of long values
const MOST_SCHEDULE = 28; // lines of a schedule
const MOST_TOLD = 16; // lines of what conform says
const AT_THE_END = 6; // of these so many are the last
const MOST_STACK = 6; // lines
const MOST_KINDS = 12; // lines

/* A text for the eye: characters that show nothing, or that join the one before, stand as JSON escapes them. */
export const visible = (text) => text.replace(/(?![ \n])[\p{C}\p{M}\p{Z}]/gu, (it) => [...Array(it.length).keys()].map((at) => `\\u${it.charCodeAt(at).toString(16).padStart(4, "0")}`).join(""));

const narrow = (line) => (line.length > MOST_WIDTH ? `${line.slice(0, MOST_WIDTH)} .. (${line.length.toLocaleString("en")} characters)` : line);

const linesOf = (text) => visible(text).trimEnd().split("\n").map(narrow);

/* Lines without those in the middle where there are more than `most`. */
function shortened(lines, most, sign) {
  if (lines.length <= most) return lines;
  const first = most - AT_THE_END - 1;
  return [...lines.slice(0, first), `${sign}.. ${lines.length - first - AT_THE_END} lines`, ...lines.slice(-AT_THE_END)];
}

/** A text in few lines for the eye. @param {string} text */
export const fewLines = (text) => shortened(linesOf(text), MOST_TOLD, "");

/** A name in one line for the eye. @param {string} text */
export const inOneLine = (text) => narrow(visible(text).replaceAll("\n", "\\n"));

/* A part of a long value. */
function part(characters, place) {
  const [from, to] = [Math.max(place - BESIDE, 0), place + BESIDE];
  if (from === 0 && to >= characters.length) return characters.join("");
  return `${from > 0 ? ".. " : ""}${characters.slice(from, to).join("")}${to < characters.length ? " .." : ""} (${characters.length.toLocaleString("en")} characters)`;
}

/**
 * What is said of a difference; a long value that was found, and that of ot.js, cut around where they first differ.
 * @param {string} said @param {{ found?: string, otjs?: string }} answer of conform
 */
export function aroundDifference(said, { found = "", otjs = "" }) {
  if (Math.max(found.length, otjs.length) <= MOST_WIDTH) return said;
  const [ours, theirs] = [[...otjs], [...found]];
  const first = theirs.findIndex((it, at) => it !== ours[at]);
  const place = first < 0 ? theirs.length : first;
  const shown = `found ${part(theirs, place)}\not.js ${part(ours, place)}\nthese two lines differ from character ${(place + 1).toLocaleString("en")} of the whole value on`;
  return said.replace(`found ${found}\not.js ${otjs}`, () => shown);
}

const linesIn = (text) => text.split("\n").length - 1;

/* What is said of the last session, and in which line of the whole text its answer's instruction is. */
function toldOf(verdict, text) {
  const { schedule, answer } = verdict;
  const before = linesIn(text) - linesIn(schedule);
  const line = answer && placeTold({ ...answer, line: answer.line && answer.line + before }, ";\n".repeat(before) + schedule);
  const said = aroundDifference(saidOf(verdict), answer ?? {});
  return said === "" ? [] : fewLines(said + (line ? `${line}\n` : ""));
}

/* What was thrown, with the first lines of its stack. */
function thrownLines(who, { value }) {
  const stack = value instanceof Error ? String(value.stack ?? value) : String(value);
  const [first, ...places] = linesOf(stack).slice(0, MOST_STACK);
  return [`${who} threw ${first}`, ...places.map((line) => `    ${line.trim()}`)];
}

const THE_WAY = "the message was changed on its way: between where it was sent and where it was taken";
const LATER = "the message is a later one of its link: one before it was lost, or they came in another order";

/* What is said of a message that differs. */
const onTheWay = ({ schedule, answer }) => (behindOnLink(schedule, answer.at).includes(answer.found) ? LATER : THE_WAY);

const IN_SCALARS = "lengths are in Unicode scalar values here; your port was handed UTF-16 units";

/**
 * @typedef {object} Words how a user calls what is said of
 * @property {{ seconds: string, reduceSeconds: string, utf16: string | null, every: string }} more the options that give more time, that a port counts UTF-16 units (null where it does), or, with a number behind it, that ask for small sessions
 * @property {(sessions: string[], name: string) => string[]} replayed how reduced sessions are tried again, with the file into which they were put
 * @property {(name: string) => string} madeBy how a session as it was found is made again
 * @property {(its: { sessions: string[], verdict: object }) => string[]} noted what else is to be noted of a reduced case
 */

/* Sessions in one text. */
const textOf = (sessions) => sessions.join("%%\n");

/** How reduced sessions are tried again: they are put into a file where one is named, the first ones alone. @param {string | undefined} file @param {(file: string, count: number) => string} inFile of so many sessions @param {string[]} otherwise */
export function replayedFrom(file, inFile, otherwise) {
  let owner = null; // the session whose schedule is in the file
  return (sessions, name) => {
    if (file === undefined || (owner ?? name) !== name) return otherwise;
    owner = name;
    try {
      writeFileSync(file, textOf(sessions));
      return [`the schedule is in ${file}`, `to replay it: ${inFile(file, sessions.length)}`];
    } catch (fault) {
      return [`the schedule could not be saved: ${fault.message}`];
    }
  };
}

/** The number of a session made at random, or null. */
export const seedOf = (name) => /^session of seed (\d+)\b/.exec(name)?.[1] ?? null;

const countOf = (schedule) => valuesOf(schedule).instructions.length;

/* The message of a failure. */
function messageOf(name, found, { sessions, verdict, notes }, text, words) {
  const { answer, thrown, isEnded, isOfState } = verdict;
  const before = sessions.length > 1 ? `; the last of ${sessions.length} in one process` : "";
  const isOfUnits = !isEnded && /[\ud800-\udfff]/.test(text);
  const [all, left] = [countOf(found), countOf(sessions.at(-1))];
  return [
    `${inOneLine(name)}: ${all} instructions${left === all ? "" : `, here reduced to ${left}`}${before}`,
    "",
    ...shortened(linesOf(text), MOST_SCHEDULE, "; "),
    "",
    ...toldOf(verdict, text),
    ...(thrown ? thrownLines(answer ? "the port" : "the driver", thrown) : []),
    ...(isOfTheWay(verdict) ? [onTheWay(verdict)] : []),
    ...(isOfUnits ? [words.more.utf16 === null ? IN_SCALARS : `a text has characters past U+FFFF: a port that counts UTF-16 units is tried with ${words.more.utf16}`] : []),
    ...notes,
    ...words.noted({ sessions, verdict }),
    ...(isOfState ? words.replayed(sessions, name).slice(0, 1) : words.replayed(sessions, name)),
    words.madeBy(name),
  ];
}

/**
 * The error of a session that fails.
 * @param {string} name the session's
 * @param {string} found as it was found
 * @param {string} kind
 * @param {import("./reducing.mjs").Case} its reduced
 * @param {Words} words
 */
export function failureError(name, found, kind, its, words) {
  const schedule = textOf(its.sessions);
  const { answer, thrown } = its.verdict;
  const message = `${messageOf(name, found, its, schedule, words).slice(0, MOST_LINES).join("\n")}\n`;
  const error = new AssertionError({ message, actual: answer?.found, expected: answer?.otjs, operator: "conforms" });
  return Object.assign(error, { session: name, kind, schedule, answer, ...(thrown && { cause: thrown.value }) });
}

/** The case of a session that hung in this process, up to the instruction that did. */
export function hungCase(schedule, verdict, limit, { more }) {
  const { late } = verdict;
  const { values: [values], textOf } = withOneUnitEach([schedule]);
  const instructions = late > 0 ? values.instructions.slice(0, late) : values.instructions;
  const where = late > 0 ? `instruction ${late - 1}, ${instructions.at(-1).word}, did not end` : "it did not end";
  return { sessions: [textOf({ ...values, instructions })], verdict, notes: [`${where} within ${Number((limit / 1000).toPrecision(3))} seconds; a slow port is given more by ${more.seconds}`] };
}

/** The case of state that an earlier session left: that session, and the beginning of another one. */
export function leftCase(verdict) {
  const { values, textOf } = withOneUnitEach(sessionsOf(verdict));
  return { sessions: values.map((it, at) => textOf(at === values.length - 1 ? { ...it, instructions: [] } : it)), verdict, notes: [] };
}

/** The error of failures of several kinds. @param {import("./trying.mjs").Outcome["failures"]} failures */
export function failuresError(failures) {
  if (failures.length === 1 && failures[0].sessions === 1) return failures[0].error;
  const count = failures.reduce((sum, { sessions }) => sum + sessions, 0);
  const kinds = failures.map(({ kind, sessions }) => narrow(`    ${visible(kind)}: ${sessions}`));
  const lines = [`${count} sessions fail; by their kinds:`, ...shortened(kinds, MOST_KINDS, "    "), "", "the shortest of the first kind", failures[0].error.message];
  const message = `${lines.join("\n").trimEnd().split("\n").slice(0, MOST_LINES).join("\n")}\n`;
  const { actual, expected, session, kind, schedule, answer } = failures[0].error;
  return Object.assign(new AssertionError({ message, actual, expected, operator: "conforms" }), { session, kind, schedule, answer, failures, cause: failures[0].error.cause });
}

/** The message of laws that a port breaks. */
export function lawsMessage(broken) {
  const lines = broken.map(({ law, said }) => narrow(`    ${law}: ${visible(said)}`));
  return [`the port breaks ${broken.length === 1 ? "a law" : `${broken.length} laws`} of ot.js that no session shows`, ...lines,
    `a port declines a law by its name: { known: ${JSON.stringify(broken.map(({ law }) => law))} }`, ""].join("\n");
}
