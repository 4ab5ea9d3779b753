/* `conforms` for a port or a driver in this process. */

import { AssertionError } from "node:assert";
import { driverOf } from "./driving.mjs";
import { junit, tap } from "./formats.mjs";
import { Judge } from "./judging.mjs";
import { ofRandom } from "./options.mjs";
import { steadyPace } from "./pace.mjs";
import { checkPort } from "./port.mjs";
import { failureError, failuresError, hungCase, lawsMessage, replayedFrom, seedOf } from "./report.mjs";
import { corpus, randomBy } from "./sessions.mjs";
import { dueStages, isSmall, spacesOf, STAGES } from "./small.mjs";
import { tried } from "./trying.mjs";
import { verdictOf } from "./verdict.mjs";

const SECONDS = 10;
const REDUCE_SECONDS = 3;
const SMALL = { edits: 2, fits: (milliseconds) => milliseconds <= 5000 }; // a run as a whole is to be shorter than the 5 seconds of many test runners

/** The milliseconds that a session may take. */
export const limitOf = (schedule, { seconds = SECONDS }) => steadyPace(seconds).most(schedule.length);

/* The rounds of small sessions: by default as many as there is time for, and none without the corpus. */
function smallRounds({ every, corpus: isCorpus = true }, spaces, usual) {
  const isDue = dueStages(usual.fits);
  const most = every ?? (isCorpus ? usual.edits : 0);
  const those = spaces.filter(({ stage }) => stage.edits <= most);
  return those.map(({ said, stage, sessions }) => ({ heading: said, stage, sessions, isDue: () => every !== undefined || isDue(stage) }));
}

/**
 * The rounds of a run, and the spaces of all small sessions.
 * @param {import("./testing.mjs").ConformsOptions} options
 * @param {Pick<import("../npm/otbench.mjs").Bench, "generate">} bench
 * @param {{ edits: number, fits: (milliseconds: number, sessions: number) => boolean }} usual of small sessions where the option `every` is left out: with how
 *   many edits at most, and how long all may take, or how many they may be
 * @returns {Pick<import("./trying.mjs").Around, "rounds" | "spaces">}
 */
export function roundsOf(options, bench, usual) {
  const spaces = spacesOf(bench, STAGES);
  const ofCorpus = options.corpus === false ? [] : [{ heading: "corpus", sessions: corpus() }];
  const atRandom = { heading: "at random", sessions: randomBy(ofRandom(options), bench.generate) };
  return { spaces, rounds: [...ofCorpus, ...smallRounds(options, spaces, usual), atRandom] };
}

/** The formats in which a run is to be told. */
export const formatsOf = (options) => [...(options.junit ? [junit(options.junit)] : []), ...(options.tap ? [tap(options.tap)] : [])];

/** Options of which TAP or JUnit asks for all failures. */
export const withAll = (options) => ({ ...options, all: options.all || options.tap !== undefined || options.junit !== undefined });

/* How the session as it was found is made again. */
function madeBy(name, options) {
  const seed = seedOf(name);
  if (seed === null) return `as it was found it is ${name}${isSmall(name) ? "" : " of the corpus"}`;
  return `as it was found it is tried by conforms(port, ${JSON.stringify({ corpus: false, ...ofRandom(options), sessions: 1, seed: Number(seed) })})`;
}

function wordsOf(subject, options) {
  const utf16 = typeof subject === "function" && options.utf16 === undefined ? "the option utf16" : null;
  return {
    more: { seconds: "the option seconds", reduceSeconds: "reduceSeconds", utf16, every: "every: " },
    replayed: replayedFrom(options.saveTo, (file) => `compare(port, readFileSync(${JSON.stringify(file)}, "utf8")) of otbench/testing`,
      ["the schedule is the error's `schedule`; the option saveTo puts it into a file", "to replay it: compare(port, error.schedule) of otbench/testing; where that conforms in a new process, the port keeps state between sessions"]),
    madeBy: (name) => madeBy(name, options),
    noted: () => [],
  };
}

/** The error of a session that hung at an instruction, counted from 1; 0 where that is not known. */
export function hangOf(name, schedule, late, subject, options) {
  const verdict = verdictOf(() => null, schedule, { lines: [], late }, 0);
  const words = wordsOf(subject, options);
  return failureError(name, schedule, "driver: was ended: it took too long", hungCase(schedule, verdict, limitOf(schedule, options), words), words);
}

/* The error of laws that a port breaks. */
function lawsError(broken) {
  const error = new AssertionError({ message: lawsMessage(broken), operator: "conforms" });
  const cause = broken.find((it) => "cause" in it);
  return Object.assign(error, { laws: Object.fromEntries(broken.map(({ law, said }) => [law, said])), ...(cause && { cause: cause.cause }) });
}

/**
 * Tries a port or a driver; throws where it does not conform.
 * @param {import("./testing.mjs").Subject} subject
 * @param {import("./testing.mjs").ConformsOptions} given checked ones
 * @param {Pick<import("../npm/otbench.mjs").Bench, "conform" | "conformMany" | "generate" | "steps">} bench
 * @param {{ onBegin?: Function, onInstruction?: Function, onFailure?: Function }} [watcher] is told what is under way, so that a hang can be named
 */
export async function conforming(subject, given, bench, { onBegin, onInstruction, onFailure } = {}) {
  checkPort(subject, given);
  const options = withAll(given);
  const { seconds = SECONDS, reduceSeconds = REDUCE_SECONDS, signal } = options;
  const judge = new Judge({
    newDriver: () => driverOf(subject, options, bench.steps),
    jobs: 1,
    isKept: false,
    pace: steadyPace(seconds),
    bench,
    onInstruction,
    signal,
  });
  const around = { judge, ...roundsOf(options, bench, SMALL), secondsToReduce: () => reduceSeconds, words: wordsOf(subject, options), formats: formatsOf(options), onBegin, onFailure };
  const { failures, wrong, broken, sessions, every, untried, compared, laws, known } = await tried(subject, options, around);
  if (failures.length > 0) throw options.all ? failuresError(failures) : failures[0].error;
  if (wrong.length > 0) throw new AssertionError({ message: wrong.join("\n"), operator: "conforms" });
  if (broken.length > 0) throw lawsError(broken);
  return { sessions, every, untried, compared: compared.keys, laws, ...(Object.keys(known).length > 0 && { known }) };
}
