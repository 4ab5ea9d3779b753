/*
 * `otbench port`: tries a port whose driver is a program, in any language, as `conforms` of otbench/testing tries one in JavaScript.
 *
 *     otbench port [options] -- my-driver ..
 *
 *     words ──▶ options, a command ── drivers that are processes ── the run of `conforms` ──▶ what is said, a status
 */

import { readFileSync } from "node:fs";
import { benchOver } from "../npm/bench.mjs";
import { formatsOf, roundsOf, withAll } from "./conforming.mjs";
import { translatedDriver } from "./driving.mjs";
import { OtbenchError } from "../npm/errors.mjs";
import { closing, toldRound } from "./formats.mjs";
import { Judge } from "./judging.mjs";
import { optionOf } from "./options.mjs";
import { Pace } from "./pace.mjs";
import { PORT_HELP } from "./porthelp.mjs";
import { eachInOne, keptFor } from "./processes.mjs";
import { replayedFrom, seedOf } from "./report.mjs";
import { cutAtMark, own } from "./sessions.mjs";
import { quoted } from "../command/shell.mjs";
import { MOST_EDITS } from "./small.mjs";
import { complain, print as printed } from "../command/streams.mjs";
import { tried } from "./trying.mjs";
import { PortFault, portWords } from "./words.mjs";

const [CONFORMS, FAILS, USAGE] = [0, 1, 2];
const SIGNALS = ["SIGINT", "SIGTERM", "SIGHUP"];
const WITHIN = 8; // seconds behind the start of a run when reducing ends, unless it is said otherwise
const LEAST_REDUCE = 3; // seconds that it has in any case
const SECONDS = 5;
const PROGRESS_MS = 200;

/* The small sessions that are tried unless --every is given: some 400, and by one process what takes 5 seconds, if that is more. */
const isFew = (sessions) => sessions <= 400;
export const IN_ONE = { edits: MOST_EDITS, fits: (milliseconds, sessions) => isFew(sessions) || milliseconds <= 5000 };
const EACH_IN_ONE = { edits: MOST_EDITS, fits: (milliseconds, sessions) => isFew(sessions) };

/* The output cannot be written, which was said. */
class Unwritten extends Error {}

function print(text) {
  if (!printed(text)) throw new Unwritten();
}

const say = (text) => complain(`otbench: ${text}\n`);

const counted = (count) => (count === 1 ? "1 session" : `${count} sessions`);

/* A line on a terminal that the next one takes the place of. */
function progress(text) {
  if (process.stderr.isTTY) process.stderr.write(`\r\x1b[K${text.slice(0, (process.stderr.columns || 80) - 1)}`);
}

/* What is under way in a round: the session, or how many of how many and the seconds that are left, now and then. */
function progressOf({ heading, stage }) {
  let [done, began, shown] = [0, 0, 0];
  return (name) => {
    const now = performance.now();
    if (done++ === 0) began = shown = now;
    if (!stage) progress(`${heading}: ${name}`);
    else if (now - shown > PROGRESS_MS) {
      shown = now;
      const left = Math.ceil((((now - began) / 1000) * (stage.count - done)) / (done - 1));
      progress(`${done.toLocaleString("en")} of ${stage.count.toLocaleString("en")}, ${left} s left: ${heading}`);
    }
  };
}

const EACH_ITS_OWN = "each session had a process of its own: with --keep-driver state that one session leaves to the next is found too";

/* A line for each round, and a text for each failure. */
function plain({ all = false, keep, session }) {
  let [isThrough, conforms] = [true, true];
  let under = null;
  return {
    begin: (round) => (under = progressOf(round)),
    session: (round, name) => under(name),
    round(round, count, conforming) {
      progress("");
      print(`${toldRound(round, count, conforming)}\n`);
    },
    failure({ kind, sessions, error }) {
      progress("");
      [isThrough, conforms] = [all, false];
      print(all ? `\n${kind}: ${counted(sessions)}; the shortest\n${error.message}` : `fails: ${error.message}`);
    },
    end(wrong, compared, known, untried) {
      progress("");
      if (!isThrough) return;
      print(closing(compared, known, untried).map((line) => `${line}\n`).join(""));
      if (conforms && !keep && !session && wrong.length === 0) print(`${EACH_ITS_OWN}\n`);
    },
  };
}

const TO_SAVE = "--save-to FILE puts the schedule into a file, and a line then says how it is tried again";
const IN_ONE_PROCESS = ["--jobs", "1"]; // sessions of which the first leaves something to the last

/* What a report says of the driver's options, and how its session is tried again. */
function wordsOf(options, command) {
  const again = (words) => `otbench port ${[...words, ...options.again].map(quoted).join(" ")} -- ${command.map(quoted).join(" ")}`;
  const behind = command.slice(1).filter((word) => options.words.includes(word.split("=")[0]));
  return {
    more: { seconds: "--seconds", reduceSeconds: "--reduce-seconds", utf16: options.utf16 ? null : "--utf16", every: "--every " },
    replayed: replayedFrom(options.saveTo, (file, count) => again(["--session", file, ...(count > 1 ? IN_ONE_PROCESS : [])]), [TO_SAVE]),
    madeBy(name) {
      const seed = seedOf(name);
      return `as it was found it is ${seed === null || options.session ? name : `tried by ${again(["--no-corpus", "--sessions", "1", "--seed", seed])}`}`;
    },
    noted({ sessions, verdict }) {
      const isUnanswered = options.keep && verdict.isSlow && sessions.length === 1;
      return [
        ...(verdict.isSlow ? ["lines that the driver had not flushed when it was ended are not seen: it may have come further"] : []),
        ...(isUnanswered ? ["with --keep-driver a driver has to answer each session at its line %%, before the end of its input"] : []),
        ...(behind.length > 0 ? [`the driver was given ${behind.join(" ")}: what is meant for otbench port stands in front of the driver`] : []),
      ];
    },
  };
}

/* The kinds that a file names, one a line. Blank lines and those that begin with # say nothing. */
function knownIn(file) {
  if (file === undefined) return [];
  const lines = readFileSync(file, "utf8").split("\n").map((line) => line.trim());
  const kinds = lines.filter((line) => line !== "" && !line.startsWith("#"));
  const none = kinds.find((line) => !optionOf("known").has([line]));
  if (none !== undefined) throw new PortFault(`${file}: ${JSON.stringify(none)} is no kind of failures, as --all names them`);
  return kinds;
}

const driverBy = ({ keep, mostBytes }, command) => (keep ? keptFor : eachInOne)(command, mostBytes);

/* Prints the driver's lines over one schedule, in scalars. */
async function printLines(options, command, bench) {
  const schedule = cutAtMark(readFileSync(options.lines === "-" ? 0 : options.lines, "utf8"));
  const driver = translatedDriver(driverBy(options, command), options, bench.steps);
  const { lines, trouble } = await driver.perform(schedule, {});
  const text = Array.isArray(lines) ? lines.map((line) => (typeof line === "string" ? line : JSON.stringify(line))).join("\n") : lines;
  print(text);
  await driver.close(SECONDS);
  if (trouble !== undefined) say(trouble);
  return trouble === undefined ? CONFORMS : FAILS;
}

/* Tries the driver, and says what comes of it. */
async function tryDriver(given, command, bench, signal) {
  const options = withAll({ ...given, known: knownIn(given.known), ...(given.tap && { tap: (line) => print(`${line}\n`) }) });
  const { seconds = SECONDS, keep, jobs } = options;
  const began = performance.now();
  const secondsToReduce = () => options.reduceSeconds ?? Math.max(LEAST_REDUCE, WITHIN - (performance.now() - began) / 1000);
  const newDriver = () => translatedDriver(driverBy(options, command), options, bench.steps);
  const judge = new Judge({ newDriver, jobs, isKept: keep, pace: new Pace(seconds), bench, signal });
  const sessions = options.session ? { rounds: [{ heading: "of one's own", sessions: own(options.session, bench.run) }], spaces: [] } : roundsOf(options, bench, keep ? IN_ONE : EACH_IN_ONE);
  const formats = [...formatsOf(options), ...(options.tap ? [] : [plain(options)])];
  const { failures, wrong, compared } = await tried(null, options, { judge, ...sessions, secondsToReduce, words: wordsOf(options, command), formats });
  for (const line of [...compared.misspelt(), ...wrong]) say(line);
  return failures.length > 0 || wrong.length > 0 ? FAILS : CONFORMS;
}

/* Does something that a signal to this process ends. */
async function untilSignal(perform) {
  const controller = new AbortController();
  const stops = SIGNALS.map((name) => [name, () => controller.abort({ signal: name })]);
  for (const [name, stop] of stops) process.on(name, stop);
  try {
    return await perform(controller.signal);
  } catch (fault) {
    if (!controller.signal.aborted) throw fault;
    for (const [name, stop] of stops) process.removeListener(name, stop);
    process.kill(process.pid, controller.signal.reason.signal);
    return FAILS;
  } finally {
    for (const [name, stop] of stops) process.removeListener(name, stop);
  }
}

/**
 * Runs the subcommand.
 * @param {string[]} words behind `port`
 * @param {(words: string[], input: Uint8Array) => import("../npm/otbench.mjs").Answer} ask runs the program
 * @returns {Promise<number>} 0: every session conforms; 1: one does not, or what is needed was not compared; 2: it cannot be tried, or words are not understood
 */
export async function port(words, ask) {
  try {
    const { options, command } = portWords(words);
    if (options.help) {
      print(PORT_HELP);
      return CONFORMS;
    }
    const bench = benchOver(ask);
    return await untilSignal((signal) => (options.lines === undefined ? tryDriver(options, command, bench, signal) : printLines(options, command, bench)));
  } catch (fault) {
    if (fault instanceof Unwritten) return FAILS;
    if (!(fault instanceof PortFault || fault instanceof OtbenchError || fault.code)) throw fault;
    say(fault.message);
    return USAGE;
  }
}
