/* The messages that are on their way to a client. */

import { makePort } from "../oracle/otjs.js";
import { Session } from "../examples/port/session.js";
import { valuesOf } from "../common/schedule.mjs";

const PAST_THE_PLANE = /[\ud800-\udfff]/;

/**
 * Those that stand on a client's link, as JSON, behind the one that an instruction delivers; none where lengths in scalars and in UTF-16 units may differ.
 * @param {string} schedule
 * @param {number} at the instruction, from 1
 */
export function behindOnLink(schedule, at) {
  const values = valuesOf(schedule);
  const { word, client } = values.instructions[at - 1] ?? {};
  if (word !== "deliver" || PAST_THE_PLANE.test(schedule)) return [];
  const session = new Session(makePort(), values);
  for (const instruction of values.instructions.slice(0, at)) session.perform(instruction);
  return session.clients[client].down.map((message) => JSON.stringify(message));
}
