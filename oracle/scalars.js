/*
 * A schedule's lengths are Unicode scalar values, ot.js counts UTF-16 units. Two ways from one to the other:
 *
 *     drive     the lines of the sample driver, in scalars as `otbench steps` prints them: each character past U+FFFF is one
 *               unit inside of the port (interner.js), so the port sees no surrogate pair
 *     inUnits   the schedule itself in UTF-16 units, for a port that is to see the pairs
 */

import { unitsOf } from "../common/units.mjs";
import { drive as driveUnits } from "../examples/port/drive.js";
import { readSchedule } from "../examples/port/schedule.js";
import { Session } from "../examples/port/session.js";
import { Interner } from "./interner.js";
import { makePort } from "./otjs.js";

const otjs = makePort();

/* An escape of JSON: of a surrogate pair, of one surrogate, or another. */
const ESCAPE = /\\(?:u(d[89ab][0-9a-f]{2})\\u(d[c-f][0-9a-f]{2})|u(d[89a-f][0-9a-f]{2})|[^])/gi;
const unit = (digits) => String.fromCharCode(parseInt(digits, 16));

const withPairs = (text) => text.replace(ESCAPE, (escape, high, low) => (high ? unit(high) + unit(low) : escape));
const withUnits = (line) => line.replace(ESCAPE, (escape, high, low, one) => (one ? unit(one) : high ? unit(high) + unit(low) : escape));

/* The lines of a schedule's text on a port, their lengths in scalars. Options as for the sample driver. */
export function drive(text, port, options) {
  const interner = new Interner();
  return driveUnits(interner.inward(withPairs(text)), port, options).map((line) => interner.outward(withUnits(line)));
}

/* A schedule's text with lengths in UTF-16 units. An edit that is refused, and what stands behind it, is as it was. */
export function inUnits(text) {
  if (!/[\ud800-\udfff]/.test(withPairs(text))) return text;
  const schedule = readSchedule(text);
  const session = new Session(otjs, schedule);
  let [next, performs] = [0, true];
  const counted = (line) => {
    const instruction = schedule.instructions[next];
    const client = instruction && session.clients[instruction.client];
    if (!performs || !/^[ \t]*(edit|take|deliver|ack|read|join|read-server)\b/.test(line)) return line;
    next++;
    if (instruction.word === "edit" && client) {
      instruction.edit = unitsOf(instruction.edit, client.document);
      line = `edit ${instruction.client} ${JSON.stringify(instruction.edit)}`;
    }
    try {
      session.perform(instruction);
    } catch {
      performs = false;
    }
    return line;
  };
  return text.split("\n").map(counted).join("\n");
}

