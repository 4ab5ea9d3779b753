/* Makes one session of the recorder's events: its schedule, and the participants' own lines. */

import { Writer } from "./lines.js";
import { readLogs } from "./logs.js";
import { oneOrder } from "./order.js";

/*
 * { schedule, lines, notes, fault } of the recorder's events, and of what is said of logs that are cut themselves. A fault is the last
 * line of both: of the schedule a comment, of the participants' lines one without a place, which differs from any line that is due.
 */
export function merge(events, cuts = []) {
  const logs = readLogs(events);
  const order = oneOrder(logs);
  const writer = new Writer(logs);
  order.events.every(({ event, client }) => writer.write(event, client));
  const fault = [writer.fault || order.fault, ...cuts].filter(Boolean).join("; ") || null;
  const cut = fault ? [{ cut: fault }] : [];
  return {
    schedule: [...writer.schedule, ...cut.map((line) => `; cut: ${JSON.stringify(line.cut)}`)],
    lines: [...writer.lines, ...cut].map((line) => JSON.stringify(line)),
    notes: [...order.notes, ...writer.notes],
    fault,
  };
}
