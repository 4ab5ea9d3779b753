/* What is said of the sessions that a port was given: whether it fails in the last of them, and of which kind its failure is. */

import { OtbenchError } from "../npm/errors.mjs";
import { valuesOf } from "../common/schedule.mjs";

/**
 * @typedef {object} Verdict
 * @property {string} schedule of the session
 * @property {{ performed: string[], count: number }} process the first so many of these sessions were given to one process, the last of them is the one that is judged
 * @property {boolean} fails
 * @property {import("../npm/otbench.mjs").Conformance | null} answer of `conform`; null where the driver threw, did not end, or printed what is refused
 * @property {{ value: unknown }} [thrown]
 * @property {boolean} isRefused otbench refuses what the driver printed
 * @property {string | null} [how] how the process of a driver ended, if otherwise than it should
 * @property {string} [trouble] the same with what it said, or what an earlier session left
 * @property {boolean} isOfState the latter
 * @property {boolean} isEnded it did not keep within a limit
 * @property {boolean} isSlow that is its time
 * @property {number} [late] the instruction that did not end, from 1, in a port in this process; 0 where that is not known
 * @property {number} took milliseconds
 * @property {import("../npm/otbench.mjs").PortLines} lines
 */

/* What conform says of lines; what it refuses is kept as thrown. */
function answered(conform, schedule, lines) {
  try {
    return { answer: conform(schedule, lines) };
  } catch (value) {
    if (!(value instanceof OtbenchError)) throw value;
    return { answer: null, isRefused: true, thrown: { value } };
  }
}

const CONFORM = ["conforms", "nothing compared"]; // of lines that do not differ; whether what is needed was compared is said of all sessions together

/**
 * @param {import("../npm/otbench.mjs").Bench["conform"]} conform
 * @param {string} schedule
 * @param {import("./driving.mjs").Driven & { late?: number, isThrown?: boolean }} driven whether a driver threw
 * @param {number} took
 * @param {Verdict["process"]} [process]
 * @returns {Verdict}
 */
export function verdictOf(conform, schedule, { lines, thrown, how, trouble, isOfState = false, isEnded = false, isSlow = false, late, isThrown = false }, took, process = { performed: [schedule], count: 1 }) {
  const isLate = late !== undefined;
  const all = { schedule, process, thrown, how, trouble, isOfState, isEnded: isEnded || isLate, isSlow: isSlow || isLate, late, took, lines, isRefused: false };
  if (isLate || isThrown || isOfState) return { ...all, answer: null, fails: true };
  const told = answered(conform, schedule, lines);
  const fails = told.answer === null || !CONFORM.includes(told.answer.verdict) || trouble !== undefined;
  return { ...all, ...told, thrown: told.thrown ?? thrown, fails };
}

/** The sessions that one process was given, up to the one that is judged. @param {Verdict} verdict */
export const sessionsOf = ({ process }) => process.performed.slice(0, process.count);

/** Whether a message was changed between where it was sent and where it was taken. @param {Verdict} verdict */
export const isOfTheWay = ({ answer }) => answer?.verdict === "differs" && answer.key.startsWith("message");

/** What is said of state that an earlier session left. */
export const LEFT = "state is left from an earlier session";

/* An instruction without its client's number. */
const withoutClient = (instruction) => instruction.replace(/ \d+$/, "");

/**
 * The method of ot.js and the key in which the port differs, or else what was wrong: the same for failures of one cause, mostly.
 * @param {Verdict} verdict
 */
export function kindOf(verdict) {
  const { answer, how, isOfState, isSlow, isRefused } = verdict;
  if (answer?.verdict === "differs") {
    const what = withoutClient(answer.instruction);
    if (isOfTheWay(verdict)) return `${what}: message`;
    return `${answer.rule ?? what}: ${answer.key}`;
  }
  if (isOfState) return `port: ${LEFT}`;
  if (isSlow) return "driver: was ended: it took too long";
  if (how) return `driver: ${how}`;
  if (answer?.verdict === "stopped") return `stopped: ${answer.refusal}`;
  return isRefused ? "driver: otbench refuses what it printed" : "driver: threw";
}

/** How many instructions of the last session it takes to fail, as far as one knows. @param {Verdict} verdict */
export function neededOf({ schedule, answer, late }) {
  const { length } = valuesOf(schedule).instructions;
  if (late > 0) return late;
  return answer?.verdict === "differs" ? Math.min(answer.at, length) : length;
}

/**
 * Whether another verdict fails as this one does: by a limit of the driver or otherwise, since on a busy machine it may be too slow for once;
 * not by a limit of otbench, which a smaller session may come to; and by a message that was changed on its way, or not. What otbench refuses is
 * no failure of a smaller session.
 * @param {Verdict} first
 * @returns {(other: Verdict) => boolean}
 */
export function failsAs(first) {
  const how = (it) => JSON.stringify([it.fails, it.isEnded, it.answer === null, it.answer?.verdict === "stopped", isOfTheWay(it)]);
  return (other) => !other.isRefused && how(other) === how(first);
}

/** What is said of a failure in lines: how the driver ended, and what conform answers. That the lines so far conform is nothing to say of a driver that failed. @param {Verdict} verdict */
export function saidOf({ answer, trouble }) {
  const said = answer && !(trouble !== undefined && CONFORM.includes(answer.verdict)) ? answer.text : "";
  return trouble === undefined ? said : `${trouble}\n${said}`;
}
