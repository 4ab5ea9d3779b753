/* A port over a schedule, each answer awaited; or a driver of one. */

import { setImmediate } from "node:timers/promises";
import { end, opening, stop } from "../examples/port/drive.js";
import { readSchedule } from "../examples/port/schedule.js";
import { Session } from "../examples/port/session.js";
import { accessorsOf } from "./port.mjs";
import { translation } from "../common/units.mjs";
import { LEFT } from "./verdict.mjs";

/**
 * @typedef {object} Driven
 * @property {import("../npm/otbench.mjs").PortLines} lines
 * @property {{ value: unknown }} [thrown] what the port threw
 * @property {string | null} [how] how the process of a driver ended, if otherwise than it should
 * @property {string} [trouble] the same with what it said, or what an earlier session left
 * @property {boolean} [isOfState] the latter
 * @property {boolean} [isEnded] it was ended by a limit
 * @property {boolean} [isSlow] that is its time
 * @property {import("./verdict.mjs").Verdict["process"]} [process] the sessions that show it, where one alone does not
 * @typedef {{ onInstruction?: (at: number) => void, signal?: AbortSignal }} Watch is called with the number of each instruction that begins, from 1; says that nobody waits any more
 * @typedef {(schedule: string, watch: Watch) => Promise<Driven>} Perform
 * @typedef {{ perform: Perform, isProcess: boolean, performed: string[], close: (seconds: number) => Promise<string | null> }} Driver
 */

/* The words at which a client may leave something to microtasks. */
const OF_CLIENTS = ["edit", "deliver", "ack"];

/* The session that each port performed last in this process, by its Server. */
const lastOf = new WeakMap();

/* What earlier sessions left in the port, as the objects of a new one show, or null. */
function leftIn({ server, clients }, { operations, revision, outstanding, buffer }) {
  const log = operations(server).length;
  if (log !== 0) return `a new Server has a log of ${log}`;
  for (const { own } of clients.filter((client) => client !== null)) {
    if (revision(own) !== 0) return `a new Client(0) has the revision ${revision(own)}`;
    if (outstanding(own)) return "a new Client has an outstanding operation";
    if (buffer(own)) return "a new Client has a buffer";
  }
  return null;
}

/* A port's lines. What its methods return is awaited, and so is what they left to microtasks. */
async function drivenPort(port, accessors, text, { before, onInstruction }) {
  const schedule = readSchedule(text);
  const lines = [JSON.stringify(opening(schedule))];
  const session = new Session(port, schedule, accessors);
  const left = before === undefined ? null : leftIn(session, accessors);
  if (left !== null) return { lines: [], trouble: `${LEFT}: ${left}`, isOfState: true, process: { performed: [before, text], count: 2 } };
  let [at, thrown] = [0, undefined];
  for (const instruction of schedule.instructions) {
    onInstruction(at + 1);
    try {
      const returned = await session.begin(instruction);
      if (OF_CLIENTS.includes(instruction.word)) await setImmediate();
      lines.push(JSON.stringify({ at: at + 1, ...session.finish(instruction, returned) }));
      at++;
    } catch (value) {
      thrown = { value };
      lines.push(JSON.stringify(stop(at, instruction, session, value)));
      break;
    }
  }
  lines.push(JSON.stringify(end(at, session)));
  return { lines, thrown };
}

/* Whether lengths count UTF-16 units: those of a port do as ot.js', unless it is said otherwise. */
const countsUnits = (subject, { utf16 = typeof subject === "object" }) => utf16;

/* The same of what counts UTF-16 units: it is given a schedule so, and its lines are turned back. */
function inUnits(perform, steps) {
  return async (schedule, watch) => {
    const { inUnits: given, inScalars } = translation(schedule, steps);
    const { lines, ...rest } = await perform(given, watch);
    return { ...rest, lines: inScalars(lines) };
  };
}

/**
 * What drives a port, or a driver that is a function, over schedules; its lines count scalars.
 * @param {import("./testing.mjs").Subject} subject
 * @param {import("./testing.mjs").DriveOptions} options
 * @param {import("../npm/otbench.mjs").Bench["steps"]} steps
 * @returns {Driver}
 */
export function driverOf(subject, options, steps) {
  const accessors = accessorsOf(options.accessors);
  const perform = async (schedule, { onInstruction = () => {} } = {}) => {
    if (typeof subject === "function") return { lines: await subject(schedule) };
    const driven = await drivenPort(subject, accessors, schedule, { before: lastOf.get(subject.Server), onInstruction });
    lastOf.set(subject.Server, schedule);
    return driven;
  };
  return { isProcess: false, performed: [], perform: countsUnits(subject, options) ? inUnits(perform, steps) : perform, close: async () => null };
}

/** The same of a driver that is a process. @param {Driver} driver */
export function translatedDriver(driver, { utf16 = false }, steps) {
  if (!utf16) return driver;
  const perform = inUnits((schedule, watch) => driver.perform(schedule, watch), steps);
  return { ...driver, perform, get performed() { return driver.performed; } };
}
