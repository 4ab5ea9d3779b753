/*
 * What a port printed in several sessions, compared by one call of `conform --many`:
 *
 *     performed ── those that can be compared together ──▶ how many at the front conform, and what was compared of them
 */

import { linesOf } from "../npm/bench.mjs";
import { OtbenchError } from "../npm/errors.mjs";
import { LARGE } from "./pace.mjs";
import { bytesOf, markIn } from "../common/text.mjs";

/* What is said of a session that was counted with another one. */
const COUNTED = { verdict: "conforms", conforms: true, compared: {}, unknown: [] };

/**
 * A session that is compared with others; null if it is compared alone: a call of its own costs little as it is large, its driver failed, it has a line `%%` of its own, or it has no bytes.
 * @param {{ schedule: string, driven: import("./driving.mjs").Driven & { late?: number, isThrown?: boolean } }} performed
 */
export function partOf({ schedule, driven: { lines, late, trouble, isThrown } }) {
  if (late !== undefined || trouble !== undefined || isThrown || schedule.length > LARGE) return null;
  try {
    const session = { schedule: bytesOf(schedule, "the schedule"), lines: linesOf(lines) };
    return [session.schedule, session.lines].some(markIn) ? null : session;
  } catch {
    return null;
  }
}

/* What the program answers, or null where it refuses one of them. */
function asked(conformMany, sessions) {
  try {
    return conformMany(sessions);
  } catch (error) {
    if (error instanceof OtbenchError) return null;
    throw error;
  }
}

/**
 * What `conform` says of the sessions at the front that conform. The first of these answers counts them all.
 * @param {import("../npm/otbench.mjs").Bench["conformMany"]} conformMany
 * @param {{ schedule: Uint8Array, lines: Uint8Array }[]} sessions
 * @returns {Partial<import("../npm/otbench.mjs").Conforms>[]}
 */
export function answersOf(conformMany, sessions) {
  if (sessions.length < 2) return [];
  const told = asked(conformMany, sessions);
  if (told?.session > 1) return answersOf(conformMany, sessions.slice(0, told.session - 1));
  if (told?.sessions !== sessions.length) return [];
  const { verdict, compared, unknown } = told;
  return sessions.map((_, at) => (at === 0 ? { verdict, conforms: true, compared, unknown } : COUNTED));
}
