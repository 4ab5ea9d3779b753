/*
 * Reduces the sessions of a failure, in the time that there is for it:
 *
 *     a failure ── the first of all small sessions that fails so, or else the failure itself ── reduced ──▶ a case
 */

import { reduced } from "../common/reduce.mjs";
import { withOneUnitEach } from "../common/schedule.mjs";
import { dueStages } from "./small.mjs";
import { failsAs, neededOf, sessionsOf } from "./verdict.mjs";

const LOOKING = 1 / 3; // the part of the time in which a failure is looked for among small sessions
const FIRST_SMALL = "of all small sessions the first that fails so is";
const SLOWER = 3; // a smaller session may take so many times as long as one that failed otherwise than by its time

/**
 * @typedef {object} Case a failure as it is reported
 * @property {string[]} sessions
 * @property {import("./verdict.mjs").Verdict} verdict of these
 * @property {string[]} notes
 *
 * @typedef {object} Around
 * @property {import("./judging.mjs").Judge} judge
 * @property {() => number} secondsToReduce
 * @property {import("./report.mjs").Words} words
 * @property {import("./small.mjs").Space[]} spaces of small sessions, in which it is looked for
 */

/* A time that is over behind so many seconds: `signal` is aborted then. */
function timeOf(seconds) {
  const controller = new AbortController();
  const end = performance.now() + 1000 * seconds;
  const timer = setTimeout(() => controller.abort(), 1000 * seconds);
  return { end, signal: controller.signal, over: () => controller.abort(), done: () => clearTimeout(timer) };
}

/* How long a smaller session may take. */
const limitOf = ({ pace }, first) => (size) => Math.max(pace.found(size), first.isSlow ? 0 : SLOWER * first.took);

/* Whether a verdict fails as the first does, and as is meant. */
function showing(first, isLike) {
  const fails = failsAs(first);
  return (verdict) => verdict !== null && fails(verdict) && isLike(verdict);
}

/* The verdict on the first of all small sessions that shows it, with a note that names it; none where none is found in the stages that there is time for. */
async function firstSmall(judge, spaces, first, shows, { seconds, dropped }) {
  const isDue = dueStages((milliseconds) => milliseconds <= 1000 * seconds);
  for (const { stage, sessions } of spaces) {
    if (dropped.aborted || !isDue(stage)) return [];
    const names = [];
    const schedules = function* () {
      for (const { name, schedule } of sessions) {
        names.push(name);
        yield schedule;
      }
    };
    for await (const verdict of judge.together(schedules(), { limit: limitOf(judge, first), dropped })) {
      const name = names.shift();
      if (shows(verdict)) return [{ verdict, note: [`${FIRST_SMALL} ${name}`] }];
    }
  }
  return [];
}

/* The same in a part of the time for reducing. */
async function lookedFor(judge, spaces, first, shows, seconds) {
  const time = timeOf(seconds * LOOKING);
  try {
    return await firstSmall(judge, spaces, first, shows, { seconds: seconds * LOOKING, dropped: time.signal });
  } finally {
    time.done();
  }
}

/**
 * The smallest sessions that were found of which the last shows it, and their verdict: that which is given where none is smaller. `isCut` says whether the time was over.
 * @param {import("./judging.mjs").Judge} judge
 * @param {import("./verdict.mjs").Verdict} first
 * @param {{ shows: (verdict: object) => boolean, time: { end: number, signal: AbortSignal }, isNew?: boolean }} how
 */
async function smallest(judge, first, { shows, time, isNew = false }) {
  const { values, textOf } = withOneUnitEach(sessionsOf(first));
  let last = first;
  const isOver = () => time.signal.aborted || performance.now() + (judge.jobs > 1 ? 0 : last.took) > time.end;
  const limit = limitOf(judge, first);
  const firstShown = async (candidates) => {
    const given = [];
    const texts = function* () {
      for (const candidate of candidates) {
        if (isOver()) return;
        given.push(candidate);
        yield candidate.map(textOf);
      }
    };
    let number = 0;
    for await (const verdict of judge.verdicts(texts(), { isNew, limit, dropped: time.signal, finishes: judge.isKept && !isNew })) {
      if (verdict === null) return null;
      if (shows(verdict)) {
        last = verdict;
        const count = isNew || !judge.isKept ? verdict.process.count : 1;
        return { number, sessions: given[number].slice(0, count), needed: neededOf(verdict) };
      }
      number++;
    }
    return null;
  };
  const small = await reduced(values, neededOf(first), firstShown, isOver);
  return { sessions: small.map(textOf), verdict: last, isCut: isOver() };
}

/* A verdict of these sessions by a driver that has performed nothing yet. */
async function again(judge, sessions, first) {
  return judge.judge(sessions, { isNew: true, ...(first.isSlow && { limit: (size) => judge.pace.suspect(size) }) });
}

/*
 * What is reduced, and whether each try has a process of its own. Of a process that had several sessions it is the last one alone, if it fails so too;
 * else those before it are needed.
 */
async function waysToReduce(judge, first, shows) {
  if (!judge.isKept || first.process.count === 1) return [{ from: first, isNew: false }];
  const alone = await again(judge, [first.schedule], first);
  const whole = { from: first, isNew: true };
  return shows(alone) ? [{ from: alone, isNew: false }, whole] : [whole];
}

/* What there is to note of a failure that did not come again. */
function onceNote(first, { more }) {
  return `the driver did not do this each time${first.isSlow ? `; on a busy machine ${more.seconds} gives it more time` : ""}`;
}

/* What there is to note of a reduced case. */
function notesOf(first, isCut, { more }) {
  const slow = `as it was found the driver ${first.how}; a smaller session has less time, and ${more.seconds} gives more`;
  return [...(first.isSlow ? [slow] : []), ...(isCut ? [`the time for reducing was over; ${more.reduceSeconds} gives it more`] : [])];
}

/**
 * The case of a failure: reduced, and tried once more. Where the driver does not fail again it is the session as it was found.
 * @param {Around} around
 * @param {import("./verdict.mjs").Verdict} first
 * @param {(verdict: object) => boolean} isLike whether a failure is one of those that are meant
 * @param {import("./verdict.mjs").Verdict | undefined} meanwhile a smaller one that was found while the first had the rest of its time
 * @returns {Promise<Case>}
 */
export async function caseOf({ judge, secondsToReduce, words, spaces }, first, isLike, meanwhile) {
  const shows = showing(first, isLike);
  const seconds = secondsToReduce();
  if (seconds === 0) return { sessions: [first.schedule], verdict: first, notes: [] };
  const time = timeOf(seconds);
  try {
    const small = meanwhile ? [] : await lookedFor(judge, spaces, first, shows, seconds);
    for (const { verdict: start, note } of [...small, { verdict: meanwhile ?? first, note: [] }])
      for (const { from, isNew } of await waysToReduce(judge, start, shows)) {
        const { sessions, verdict, isCut } = await smallest(judge, from, { shows, time, isNew });
        const last = verdict === first || judge.isProcess ? await again(judge, sessions, first) : verdict;
        if (shows(last)) return { sessions, verdict: last, notes: [...(sessions.length === 1 ? note : []), ...notesOf(first, isCut, words)] };
      }
  } finally {
    time.done();
  }
  return { sessions: [first.schedule], verdict: first, notes: [onceNote(first, words)] };
}

/**
 * Reduces a session that seems to hang, while it has the rest of its time.
 * @param {import("./judging.mjs").Judge} judge
 * @param {string[]} sessions
 * @param {Promise<object>} under its verdict
 * @param {{ seconds: number, isLike: (verdict: object) => boolean }} how
 * @returns {Promise<import("./verdict.mjs").Verdict | null>} a smaller one that does not end in a short time either
 */
export async function reducedMeanwhile(judge, sessions, under, { seconds, isLike }) {
  const time = timeOf(seconds);
  under.then(time.over, time.over);
  try {
    const first = { schedule: sessions.at(-1), process: { performed: sessions, count: sessions.length }, fails: true, answer: null, isSlow: true, took: 0 };
    const { verdict } = await smallest(judge, first, { shows: (it) => it !== null && it.isSlow && isLike(it), time, isNew: true });
    return verdict === first ? null : verdict;
  } finally {
    time.done();
  }
}
