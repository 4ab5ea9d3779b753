/* The processor time of a process and of what it has started, where the system tells it: in /proc under Linux. */

import { readdirSync, readFileSync } from "node:fs";

const TICK = 10; // milliseconds, of which the times are told
const WANTS = ["R", "D"]; // the states of a thread that runs, would run, or waits for a disk

/* What stands in a file behind the name of the process: its state, its parent, its group; of its times those of its own and of its children that ended. */
function fieldsOf(file) {
  try {
    const text = readFileSync(file, "latin1");
    return text.slice(text.lastIndexOf(")") + 2).split(" ");
  } catch {
    return null; // it has ended, or there is no such file
  }
}

const listed = (folder) => {
  try {
    return readdirSync(folder).filter((name) => /^\d+$/.test(name));
  } catch {
    return [];
  }
};

const GROUP = 2;
const TIMES = [11, 12, 13, 14];

const millisecondsOf = (fields) => TICK * TIMES.reduce((sum, at) => sum + Number(fields?.[at] ?? 0), 0);

/** The milliseconds of processor time that a process had so far, and those of its children that ended; 0 where that is not told. @param {number} pid */
export const timeOf = (pid) => millisecondsOf(fieldsOf(`/proc/${pid}/stat`));

/**
 * What a group of processes has done so far: its milliseconds of processor time, and whether one of its threads would run now; null where that is not told.
 * @param {number} group
 */
export function processorOf(group) {
  const members = listed("/proc").filter((pid) => Number(fieldsOf(`/proc/${pid}/stat`)?.[GROUP]) === group);
  if (members.length === 0) return null;
  const threads = members.flatMap((pid) => listed(`/proc/${pid}/task`).map((thread) => fieldsOf(`/proc/${pid}/task/${thread}/stat`)?.[0]));
  return { milliseconds: members.reduce((sum, pid) => sum + timeOf(pid), 0), wants: threads.some((state) => WANTS.includes(state)) };
}
