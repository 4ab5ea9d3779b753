/* What the program prints as data, as the values of the package. docs/FORMATS.md has each. */

import { isConforming } from "../common/conformance.mjs";
import { lineNamed, linesEndIn } from "../common/numbering.mjs";
import { lastLineIn, textOf } from "../common/text.mjs";

/* A text's lines, each ended by LF. */
const linesOf = (text) => text.split("\n").slice(0, -1);

const objectsOf = (text) => linesOf(text).map((line) => JSON.parse(line));

/** What `run --json` prints. */
export function readRun(text) {
  const run = { reads: [], stopped: null, clients: [], server: null, quiet: false };
  for (const { do: word, client, at, stopped, end, ...state } of objectsOf(text)) {
    if (word) run.reads.push({ client: client ?? null, ...state });
    else if (stopped) run.stopped = { at, refusal: stopped };
    else if (end) run.quiet = end === "quiet";
    else if (client === null) run.server = state;
    else run.clients.push(state);
  }
  return run;
}

/** What `steps` prints. */
export const readSteps = objectsOf;

/** What `check --json` prints. */
export function readCheck(text) {
  const { at, stopped, quiet, unsettled, verdict } = JSON.parse(text);
  return { stopped: stopped ? { at, refusal: stopped } : null, quiet, waits: unsettled[0] ?? null, property: verdict };
}

/** What `check --all --json` prints. */
export const readCheckOfAll = (text) => ({ ...readCheck(text), unsettled: JSON.parse(text).unsettled });

/** What `judge --json` prints. */
export function readJudge(text) {
  const { verdict: kind, events, tags } = JSON.parse(text);
  return kind === "holds" ? { holds: true, violation: null } : { holds: false, violation: { kind, events, tags } };
}

/* What the answer of a difference may lack. */
const LACKING = { place: null, points: null, rule: null, given: [], note: null };

/** What `conform --json` prints of the lines beside a schedule. Where that is cut, nothing conforms. @param {string} text @param {string} schedule */
export const readConform = (text, schedule) => conformIn(JSON.parse(text), schedule);

function conformIn(answer, schedule) {
  answer.conforms = isConforming(answer);
  if (!("at" in answer)) return answer;
  return { ...(answer.verdict === "differs" && LACKING), ...answer, line: lineNamed(answer, schedule) };
}

/**
 * What `conform --many --json` prints. Its lines are of the whole input.
 * @param {string} text @param {(line: number) => { session: number, line: number }} placeOf
 */
export function readConformMany(text, placeOf) {
  const answer = JSON.parse(text);
  if (!("session" in answer)) return { ...answer, conforms: isConforming(answer), unknown: answer.unknown.map(({ key, line }) => ({ key, ...placeOf(line) })) };
  return conformIn({ ...answer, unknown: answer.unknown.map(({ key, line }) => ({ key, line: placeOf(line).line })) }, answer.schedule);
}

/**
 * Where a port's lines for some instructions end, if that is before the schedule's last one: `linesEnd`, a place. Of many sessions which all conform, for each such one
 * { session, place }. Nothing where they do not conform so far.
 * @param {{ verdict: string, session?: number, sessions?: number }} answer @param {[schedule: Uint8Array, lines: Uint8Array][]} sessions
 */
export function linesEndOf({ verdict, session, sessions: count }, sessions) {
  if (verdict !== "conforms") return {};
  const placeIn = ([schedule, lines]) => linesEndIn(lastLineIn(lines), textOf(schedule));
  if (count === undefined) {
    const place = placeIn(sessions[(session ?? 1) - 1]);
    return place === null ? {} : { linesEnd: place };
  }
  const ended = sessions.map((parts, i) => ({ session: i + 1, place: placeIn(parts) })).filter(({ place }) => place !== null);
  return ended.length === 0 ? {} : { linesEnd: ended };
}
