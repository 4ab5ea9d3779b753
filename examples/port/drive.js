/* The lines of a port over a schedule. */

import { readSchedule } from "./schedule.js";
import { Session } from "./session.js";

/* The message of what a port throws, which may be any value. */
export const messageOf = (thrown) => (thrown instanceof Error ? thrown.message : String(thrown));

/* The lines beside those of instructions that were performed. */
export const opening = ({ clients, present, start }) => ({ at: 0, clients, present, start });
export const stop = (at, { word, client }, { message }, thrown) => ({ at, do: word, client, message, stopped: messageOf(thrown) });
export const end = (at, session) => ({ at, end: session.isQuiet() ? "quiet" : "not quiet" });

/* The lines of a schedule's text on a port. */
export function drive(text, port, { short = false } = {}) {
  const lines = [];
  const print = (values) => lines.push(JSON.stringify(values));
  const schedule = readSchedule(text);
  print(opening(schedule));
  const session = new Session(port, schedule);
  let at = 0;
  for (const instruction of schedule.instructions) {
    try {
      const values = session.perform(instruction);
      if (short && !/^(read|join)/.test(values.do)) delete values.document;
      print({ at: at + 1, ...values });
      at++;
    } catch (fault) {
      print(stop(at, instruction, session, fault));
      break;
    }
  }
  print(end(at, session));
  return lines;
}
