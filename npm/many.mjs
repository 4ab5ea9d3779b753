/* Many sessions as one input: each a schedule, a line `%%`, what the port printed, and a line `%%`. */

import { withRest } from "../common/text.mjs";

const NOTHING = new Uint8Array(0);
const LF = 10;

/** A session as a part of the input. @param {[schedule: Uint8Array, lines: Uint8Array]} parts */
export const sessionOf = ([schedule, lines]) => withRest(withRest(schedule, lines), NOTHING);

const linesIn = (bytes) => bytes.reduce((count, byte) => count + (byte === LF ? 1 : 0), 0);

/**
 * Where a line of the input stands: in which session, and which line of that.
 * @param {Uint8Array[]} sessions @param {number} line from 1
 */
export function placeAmong(sessions, line) {
  let [at, left] = [0, line];
  while (at < sessions.length - 1 && left > linesIn(sessions[at])) left -= linesIn(sessions[at++]);
  return { session: at + 1, line: left };
}
