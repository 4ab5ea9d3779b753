/*
 * Tries a port or a driver over rounds of sessions and the laws:
 *
 *     rounds ── judge ──▶ verdicts ──▶ failures by kinds ── one of each reduced ──▶ reports
 *                                 └──▶ what was compared
 */

import { Compared } from "./compared.mjs";
import { triedLaws } from "./laws.mjs";
import { caseOf, reducedMeanwhile } from "./reducing.mjs";
import { failureError, hungCase, leftCase } from "./report.mjs";
import { valuesOf } from "../common/schedule.mjs";
import { untriedLines } from "./small.mjs";
import { behind } from "./timer.mjs";
import { kindOf } from "./verdict.mjs";

/**
 * @typedef {object} Around what a run is given beside its options
 * @property {import("./judging.mjs").Judge} judge
 * @property {Round[]} rounds
 * @property {import("./small.mjs").Space[]} spaces of small sessions, in which a failure is looked for before it is reduced, unless the option `every` is 0
 * @property {() => number} secondsToReduce how long a failure is reduced that begins to be reduced now
 * @property {import("./report.mjs").Words} words
 * @property {import("./formats.mjs").Format[]} [formats]
 * @property {(name: string, schedule: string) => void} [onBegin] of each session
 * @property {(error: Error) => void} [onFailure] a session that fails, before it is reduced
 *
 * @typedef {object} Round
 * @property {string} heading
 * @property {Iterable<import("./testing.mjs").Session>} sessions
 * @property {import("./small.mjs").Stage} [stage] of which it is every session
 * @property {() => boolean} [isDue] whether there is time for it
 *
 * @typedef {object} Outcome
 * @property {number} sessions how many conform
 * @property {{ said: string, sessions: number }[]} every the stages that were tried whole, and how many sessions of each conform
 * @property {import("./testing.mjs").Untried[]} untried the stages that were not tried whole
 * @property {Compared} compared
 * @property {{ kind: string, sessions: number, error: Error }[]} failures of each kind one, the most frequent kind first
 * @property {Record<string, number>} known how often each kind came that is tolerated
 * @property {string[]} wrong what was never compared though it is needed, and how a driver ended
 * @property {string[]} laws those that were tried
 * @property {{ law: string, said: string, cause?: unknown }[]} broken
 */

const instructionsOf = ({ verdict }) => valuesOf(verdict.schedule).instructions.length;

/* Whether another failure of a kind is the one to be told: the first small session, or else the shortest. */
const isBetter = (it, best) => !best.isSmall && (it.isSmall || instructionsOf(it) < instructionsOf(best));

class Run {
  constructor(subject, options, around) {
    Object.assign(this, { subject, options, formats: [], ...around });
    this.known = Object.fromEntries((options.known ?? []).filter((it) => it.includes(": ")).map((kind) => [kind, 0]));
    this.failures = new Map(); // by their kinds: how many, and the one to be told
    this.smaller = new Map(); // of a session that hung, a smaller one
    this.compared = new Compared(options.need ?? ["document"]);
    this.conforming = 0;
    this.every = [];
  }

  isKnown = (verdict) => Object.hasOwn(this.known, kindOf(verdict));

  tell(event, ...given) {
    for (const format of this.formats) format[event]?.(...given);
  }

  /* Tries the sessions of a round; up to the first failure, unless all are to be tried. */
  async round(round) {
    const names = [];
    const onBegin = this.onBegin ?? (() => {});
    const schedules = function* () {
      for (const { name, schedule } of round.sessions) {
        names.push(name);
        onBegin(name, schedule);
        yield schedule;
      }
    };
    this.tell("begin", round);
    let [done, conforming] = [0, 0];
    for await (const verdict of this.judge.together(schedules(), { meanwhile: (schedule, under) => this.meanwhile([schedule], under) })) {
      this.note(round, names.shift(), verdict);
      done++;
      conforming += verdict.fails ? 0 : 1;
      if (this.failures.size > 0 && !this.options.all) return;
    }
    if (round.stage) this.every.push({ said: round.heading, sessions: conforming });
    this.tell("round", round, done, conforming);
  }

  /* Notes a verdict. */
  note(round, name, verdict) {
    const kind = verdict.fails ? kindOf(verdict) : null;
    const isKnown = verdict.fails && this.isKnown(verdict);
    this.tell("session", round, name, verdict, isKnown);
    this.options.onSession?.({ name, schedule: verdict.schedule, conforms: !verdict.fails, kind, known: isKnown });
    if (isKnown) this.known[kind]++;
    else if (verdict.fails) this.addFailure(kind, { name, verdict, isSmall: round.stage !== undefined });
    else {
      this.conforming++;
      this.compared.add(verdict);
    }
  }

  addFailure(kind, it) {
    const { sessions, best } = this.failures.get(kind) ?? { sessions: 0, best: it };
    this.failures.set(kind, { sessions: sessions + 1, best: isBetter(it, best) ? it : best });
  }

  /* Reduces a session of a process that seems to hang, while it has the rest of its time. */
  async meanwhile(sessions, under) {
    const { judge } = this;
    if (this.options.all || !judge.isProcess || judge.isKept || this.secondsToReduce() === 0) return;
    let timer = null;
    const soon = new Promise((resolve) => (timer = behind(judge.pace.suspect(sessions.at(-1).length), () => resolve("hangs"))));
    const first = await Promise.race([under, soon]).finally(() => timer.stop());
    if (first !== "hangs") return;
    const small = await reducedMeanwhile(judge, sessions, under, { seconds: this.secondsToReduce(), isLike: (it) => !this.isKnown(it) });
    if (small) this.smaller.set(sessions.at(-1), small);
  }

  /* The error of a session that fails, reduced. With `all` it is one of the same kind. */
  async errorOf(kind, { name, verdict, isSmall }) {
    const found = verdict.schedule;
    const told = (its) => failureError(name, found, kind, its, this.words);
    if (verdict.isRefused) return told({ sessions: [found], verdict, notes: ["otbench refuses what the driver printed"] });
    if (verdict.isOfState) return told(leftCase(verdict));
    if (verdict.late !== undefined) return told(hungCase(found, verdict, this.judge.pace.most(found.length), this.words));
    this.onFailure?.(told({ sessions: [found], verdict, notes: ["a smaller session hung"] }));
    const isLike = this.options.all ? (it) => kindOf(it) === kind : (it) => !this.isKnown(it);
    const spaces = isSmall || this.options.every === 0 ? [] : this.untried();
    return told(await caseOf({ ...this, spaces }, verdict, isLike, verdict.isSlow ? this.smaller.get(found) : undefined));
  }

  /* The spaces of small sessions that were not tried whole. */
  untried() {
    return this.spaces.filter(({ said }) => !this.every.some((it) => it.said === said));
  }

  /* The errors of all kinds, the most frequent first. */
  async failed() {
    const told = [];
    for (const [kind, { sessions, best }] of [...this.failures].sort(([, one], [, other]) => other.sessions - one.sessions)) {
      const error = await this.errorOf(kind, best);
      told.push({ kind, sessions, error });
      this.tell("failure", { kind, sessions, error });
    }
    return told;
  }

  /* Tries the laws; a driver has none that are known here. */
  async laws() {
    if (this.subject === null || typeof this.subject === "function") return { tried: [], broken: [] };
    this.onBegin?.("the laws", "clients 1\n");
    const { tried, broken } = await triedLaws(this.subject, this.options);
    for (const law of tried) this.tell("law", law, broken.find((it) => it.law === law)?.said ?? null);
    return { tried, broken };
  }

  /** @returns {Promise<Outcome>} */
  async run() {
    let laws = null; // they take little time, and come behind the first round: a fault that a session shows is told with that
    for (const round of this.rounds) {
      if (round.isDue?.() !== false) await this.round(round);
      if (this.failures.size > 0 && !this.options.all) break;
      laws ??= await this.laws();
      if (laws.broken.length > 0 && !this.options.all) break;
    }
    const failures = await this.failed();
    const lacks = this.options.all || failures.length === 0 ? this.compared.lacks() : null;
    const { tried, broken } = laws ?? { tried: [], broken: [] };
    const wrong = [lacks, await this.judge.close()].filter((it) => it !== null);
    const untried = this.untried().map(({ said, stage }) => ({ said, sessions: stage.count, every: stage.edits }));
    this.tell("end", wrong, this.compared, this.known, untriedLines(untried, this.words.more.every));
    return { sessions: this.conforming, every: this.every, untried, compared: this.compared, failures, known: this.known, wrong, laws: tried, broken };
  }
}

/**
 * Tries a subject.
 * @param {import("./testing.mjs").Subject | null} subject a port, whose laws are tried too; a driver; null: drivers that are processes
 * @param {import("./testing.mjs").ConformsOptions} options checked ones
 * @param {Around} around
 */
export async function tried(subject, options, around) {
  try {
    return await new Run(subject, options, around).run();
  } finally {
    await around.judge.close();
  }
}
