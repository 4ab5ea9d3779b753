// A session that follows the lines of steps as they change: the equal lines at the front are not folded again, those behind them are, a
// slice at a time, so that a page stays in use. The session that the page shows meanwhile stays as it is.

import { openSession } from "../../common/fold.mjs";

/** How long a slice lasts, in milliseconds, and after how many lines the clock is asked. */
const SLICE = 12;
const LINES = 50;

/**
 * @param {import("../../common/fold.mjs").Session | null} session what the last lines gave
 * @param {{ keep: number, rest: string }} change how many lines at the front stay, and those behind them
 * @param {() => Promise<void>} pause between two slices
 * @returns {Promise<import("../../common/fold.mjs").Session>} the session of the lines
 */
export async function followLines(session, { keep, rest }, pause) {
  const lines = rest.split("\n");
  lines.pop();
  if (lines.length === 0) return session;
  let next = 0;
  if (keep === 0 || !session) session = openSession(JSON.parse(lines[next++]));
  else session = session.upTo(Math.min(keep - 1, session.length));
  let began = performance.now();
  for (; next < lines.length; next++) {
    session.add(JSON.parse(lines[next]));
    if (next % LINES || performance.now() - began < SLICE) continue;
    await pause();
    began = performance.now();
  }
  return session;
}
