// Sessions for the tests: the examples' lines and seeded ones, as ot.js gives them through the driver of examples/port.

import fs from "node:fs";
import { makePort } from "../../oracle/otjs.js";
import { drive } from "../../oracle/scalars.js";
import { merge } from "../../recorder/merging.js";
import { readEvents } from "../../recorder/logs.js";
import { liveSession } from "../../recorder/test/live_session.js";

export const example = (name) => fs.readFileSync(new URL(`../../examples/${name}.ots`, import.meta.url), "utf8");

/* The lines that a port prints: ot.js', or one with a fault planted. */
export function portLinesOf(schedule, bug) {
  const port = makePort();
  if (bug) bug(port);
  return drive(schedule, port);
}

/* The lines that `otbench steps` prints: documents only where one is read or a client joins, no messages, and no key without a value. */
export const linesOf = (schedule) =>
  drive(schedule, makePort(), { short: true }).map((line) => JSON.stringify(JSON.parse(line), (key, value) => (key === "message" ? undefined : value ?? undefined)));

/* The schedule of a seeded live session. */
export const seededSchedule = (options) => merge(readEvents(liveSession(options).log, "log")).schedule.join("\n");
