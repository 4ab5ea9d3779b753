/*
 * Drivers over sessions, several at a time, and the verdict on each:
 *
 *     sessions ── a driver that is free ──▶ lines ── conform, of several at once ──▶ a verdict, in the order of the sessions
 *
 * A port in this process is one driver; those that are processes may be as many as there are processors.
 */

import { setImmediate, setTimeout as pause } from "node:timers/promises";
import { answersOf, partOf } from "./many.mjs";
import { behind } from "./timer.mjs";
import { UnderWay } from "./underway.mjs";
import { verdictOf } from "./verdict.mjs";

const TOGETHER = 20; // milliseconds that a session waits to be compared with others
const MOST_MORE = 4; // times that a driver which gets no processor has as long again
const LOOKS = 5; // how often it is looked at: one that would run may wait for something just then
const LOOK = 50; // milliseconds between two looks

const seconds = (milliseconds) => Number((milliseconds / 1000).toPrecision(3));

/* Whether something ends before a time of `performance.now`. */
async function endsBefore(time, result) {
  const left = time - performance.now();
  const ends = () => true;
  return left > 0 && Promise.race([result.then(ends, ends), pause(left, false, { ref: false })]);
}

/* A signal that is aborted by another one, until that is forgotten, and by `drop`. */
function droppable(dropped) {
  const controller = new AbortController();
  const drop = () => controller.abort();
  if (dropped?.aborted) drop();
  dropped?.addEventListener("abort", drop);
  return { signal: controller.signal, drop, forget: () => dropped?.removeEventListener("abort", drop) };
}

/* That nobody waits for a verdict any more. */
class Dropped extends Error {}

export class Judge {
  /**
   * @param {object} made
   * @param {() => import("./driving.mjs").Driver} made.newDriver
   * @param {number} made.jobs how many drivers there are
   * @param {boolean} made.isKept whether each of them is one process for several sessions
   * @param {{ most: (size: number) => number, add: (size: number, took: number) => void }} made.pace
   * @param {Pick<import("../npm/otbench.mjs").Bench, "conform" | "conformMany">} made.bench
   * @param {(at: number) => void} [made.onInstruction]
   * @param {AbortSignal} [made.signal] ends whatever is under way
   */
  constructor({ newDriver, jobs, isKept, pace, bench, onInstruction = () => {}, signal }) {
    Object.assign(this, { newDriver, jobs, isKept, pace, bench, onInstruction, signal });
    this.free = Array.from({ length: jobs }, newDriver);
    this.isProcess = this.free[0].isProcess;
    this.waiting = [];
    this.ending = []; // drivers that were used once, while they end
  }

  async #taken() {
    return this.free.pop() ?? new Promise((resolve) => this.waiting.push(resolve));
  }

  #given(driver) {
    const next = this.waiting.shift();
    if (next) next(driver);
    else this.free.push(driver);
  }

  /* Does something with a driver: with one that has performed nothing yet, or with one that is free. */
  async #with(isNew, act) {
    const driver = isNew ? this.newDriver() : await this.#taken();
    try {
      return await act(driver);
    } finally {
      if (isNew) this.ending.push(driver.close(seconds(this.pace.most(0))));
      else this.#given(driver);
    }
  }

  /**
   * The verdict of the first of the sessions that fails, performed one after the other by one driver, or of the last one; null where it is dropped.
   * @param {string[]} sessions
   * @param {{ isNew?: boolean, limit?: (size: number) => number, dropped?: AbortSignal }} [how] by a driver that has performed nothing yet; how long a session may take
   */
  async judge(sessions, { isNew = false, limit = (size) => this.pace.most(size), dropped } = {}) {
    return this.#with(isNew, async (driver) => {
      let verdict = null;
      for (const schedule of sessions) {
        const performed = await this.#performed(driver, schedule, limit(schedule.length), dropped);
        verdict = performed && this.#verdict(performed);
        if (verdict === null || verdict.fails) break;
      }
      return verdict;
    });
  }

  /* What a driver gives for a schedule; null where it is dropped. */
  async #performed(driver, schedule, limit, dropped) {
    await setImmediate(); // behind which nothing may come between the look at the signals and the listeners to them
    this.signal?.throwIfAborted();
    if (dropped?.aborted) return null;
    const began = performance.now();
    const driven = await this.#driven(driver, schedule, limit, dropped);
    if (driven === null) return null;
    driver.performed.push(schedule);
    const process = this.isKept ? { performed: driver.performed, count: driver.performed.length } : driven.process;
    return { schedule, driven, took: performance.now() - began, process };
  }

  /* The verdict on what a driver gave. */
  #verdict({ schedule, driven, took, process }, conform = () => this.bench.conform(schedule, driven.lines)) {
    const verdict = verdictOf(conform, schedule, driven, took, process);
    if (!verdict.fails) this.pace.add(schedule.length, took);
    return verdict;
  }

  /* The verdicts on what drivers gave, in its order: on the sessions at the front that conform by one call of the program. */
  *#verdictsOn(performed, parts) {
    const answers = answersOf(this.bench.conformMany, parts);
    for (const [at, its] of performed.entries()) yield this.#verdict(its, at < answers.length ? () => answers[at] : undefined);
  }

  /* What a driver gives, unless it takes longer; null where it is dropped. A process is ended by the signal that it is given, a port in this process is left alone. */
  async #driven(driver, schedule, limit, dropped) {
    const end = new AbortController();
    let at = 0;
    const onInstruction = (its) => this.onInstruction((at = its));
    let [timer, more, looks] = [null, 0, 0];
    const onTime = () => {
      const mayHaveMore = more < MOST_MORE && driver.isStarved !== undefined;
      if (mayHaveMore && driver.isStarved(limit)) [timer, more, looks] = [behind(limit, onTime), more + 1, 0];
      else if (mayHaveMore && ++looks < LOOKS) timer = behind(LOOK, onTime);
      else end.abort(`took more than ${seconds((more + 1) * limit)} s`);
    };
    timer = behind(limit, onTime);
    const drop = () => end.abort(new Dropped());
    for (const signal of [dropped, this.signal]) signal?.addEventListener("abort", drop);
    const ended = new Promise((_, reject) => end.signal.addEventListener("abort", () => reject(end.signal.reason)));
    ended.catch(() => {});
    try {
      const driven = driver.perform(schedule, { onInstruction, signal: end.signal });
      const given = await (driver.isProcess ? driven : Promise.race([driven, ended]));
      return end.signal.reason instanceof Dropped ? null : given;
    } catch (value) {
      if (!end.signal.aborted) return { lines: [], thrown: { value }, isThrown: true };
      return end.signal.reason instanceof Dropped ? null : { lines: [], late: at };
    } finally {
      timer.stop();
      for (const signal of [dropped, this.signal]) signal?.removeEventListener("abort", drop);
      this.signal?.throwIfAborted();
    }
  }

  /**
   * The verdicts in the order of what is to be judged. Where no more are wanted those that are under way are dropped; with `finishes` they are waited for.
   * @param {Iterable<string[]>} candidates
   * @param {{ isNew?: boolean, limit?: (size: number) => number, dropped?: AbortSignal, finishes?: boolean }} [how]
   */
  async *verdicts(candidates, { finishes = false, dropped, ...how } = {}) {
    const { signal, drop, forget } = droppable(dropped);
    const under = new UnderWay(candidates, this.jobs, (sessions) => this.judge(sessions, { ...how, dropped: signal }));
    try {
      while (under.first()) yield await under.taken();
    } finally {
      forget();
      if (!finishes) drop();
      await under.settled();
    }
  }

  /**
   * The verdicts on many sessions, in their order, each performed by a driver that is free. Where no more are wanted those that are under way are dropped. It ends where it is dropped.
   * @param {Iterable<string>} schedules
   * @param {{ limit?: (size: number) => number, dropped?: AbortSignal, meanwhile?: (schedule: string, performed: Promise<object>) => Promise<void> }} [how]
   *   `meanwhile` is called before what a driver gives is waited for
   */
  async *together(schedules, { limit = (size) => this.pace.most(size), dropped, meanwhile = async () => {} } = {}) {
    const { signal, drop, forget } = droppable(dropped);
    const perform = (schedule) => this.#with(false, (driver) => this.#performed(driver, schedule, limit(schedule.length), signal));
    const under = new UnderWay(schedules, this.jobs, perform);
    let [performed, parts, since, most] = [[], [], 0, 1]; // at first few are compared together, so that little is done for nothing where one of the first fails
    try {
      for (let first; (first = under.first()); ) {
        if (performed.length > 0 && !(await endsBefore(since + TOGETHER, first.result))) {
          yield* this.#verdictsOn(performed, parts);
          [performed, parts] = [[], []];
        }
        await meanwhile(first.given, first.result);
        const its = await under.taken();
        if (its === null) break;
        const part = partOf(its);
        if (performed.length === 0) since = performance.now();
        performed.push(its);
        if (part !== null) parts.push(part);
        if (part !== null && parts.length < most && performance.now() - since < TOGETHER) continue;
        yield* this.#verdictsOn(performed, parts);
        [performed, parts] = [[], []];
        most *= 2;
      }
      yield* this.#verdictsOn(performed, parts);
    } finally {
      forget();
      drop();
      await under.settled();
    }
  }

  /** Ends the drivers; how the first ended that did otherwise than it should, or null. */
  async close() {
    const troubles = await Promise.all(this.free.map((driver) => driver.close(seconds(this.pace.most(0)))));
    await Promise.all(this.ending);
    return troubles.find(Boolean) ?? null;
  }
}
