/* Which sessions of the corpus, and of all small ones, find which faults. */

import { bugs, leaks } from "./faults.js";
import { large } from "../ports/large.mjs";
import { smallSessions, STAGES } from "../ports/small.mjs";
import { storedSessions } from "../ports/stored.mjs";
import { comparable, comparableUnits, faultyPort, firstDifference } from "./lines.js";

export const TOGETHER = "several sessions in one process";

const named = ({ name, schedule }) => ({ name, text: schedule });

/* The sessions that are stored, and those that are made too. */
export const storedCorpus = () => storedSessions().map(named);

export const readCorpus = () => [...storedSessions(), ...large()].map(named);

/* Whether a session finds a fault, on one port or, where the fault leaks from one session to the next, on a port of its own. */
function finding(fault) {
  const fresh = () => faultyPort(bugs[fault]);
  const kept = fresh();
  return (session) => firstDifference(session, Object.hasOwn(leaks, fault) ? fresh() : kept) !== null;
}

/* The stages in which faults are looked for here. */
const TRIED = STAGES.filter(({ count }) => count < 10_000);

/* What finds the first small session that shows a fault: its stage, from 1, and its number there, or null. */
export function smallFinder(program) {
  const listed = new Map();
  const sessionsOf = (stage) => listed.get(stage) ?? listed.set(stage, [...smallSessions(program, stage)].map(comparableUnits)).get(stage);
  return (fault) => {
    const finds = finding(fault);
    for (const [at, stage] of TRIED.entries()) {
      const number = sessionsOf(stage).findIndex(finds) + 1;
      if (number > 0) return { stage: at + 1, number };
    }
    return null;
  };
}

/* The sessions that find a fault, each on a port of its own where the fault leaks from one to the next. */
function findersOf(fault, corpus) {
  const fresh = () => faultyPort(bugs[fault]);
  const kept = fresh();
  const finds = (session) => firstDifference(session, Object.hasOwn(leaks, fault) ? fresh() : kept) !== null;
  const sessions = corpus.filter(finds);
  if (sessions.length || !Object.hasOwn(leaks, fault)) return sessions;
  return corpus.some((session) => firstDifference(session, kept) !== null) ? [{ name: TOGETHER, found: 0 }] : [];
}

/* Of each fault the sessions of the corpus that find it, those first that find the fewest faults, and the first small one. */
export function coverage(firstSmall) {
  const corpus = readCorpus().map(({ name, text }) => ({ name, text, ...comparable(text), found: 0 }));
  const finders = Object.keys(bugs).map((fault) => ({ fault, sessions: findersOf(fault, corpus), small: firstSmall(fault) }));
  for (const { sessions } of finders) for (const session of sessions) session.found++;
  for (const { sessions } of finders) sessions.sort((a, b) => a.found - b.found || (a.name < b.name ? -1 : 1));
  return { corpus, finders };
}

/* The options of `otbench generate --every` that list a stage. */
function wordsOf({ clients, edits, start, letters, join }) {
  const given = [...(start ? [`--start ${start}`] : []), ...(letters ? [`--letters ${letters}`] : []), ...(join ? ["--join"] : [])];
  return [`--clients ${clients}`, `--edits ${edits}`, ...given].join(" ");
}

export function page({ corpus, finders }) {
  const nameOf = ([session]) => session?.name ?? "none";
  const row = ({ fault, sessions, small }) => `| ${fault} | ${nameOf(sessions)} | ${small.stage}: ${small.number} |`;
  const shown = (at) => finders.filter(({ small }) => small?.stage === at + 1).length;
  const found = (it, at) => (TRIED.includes(it) ? shown(at) : "not tried");
  const stage = (it, at) => `| ${at + 1} | \`${wordsOf(it)}\` | ${it.count.toLocaleString("en")} | ${found(it, at)} |`;
  const inStages = finders.filter(({ small }) => small);
  const others = new Map();
  for (const { fault, sessions, small } of finders) if (!small) others.set(nameOf(sessions), [...(others.get(nameOf(sessions)) ?? []), fault]);
  return [
    "# Which sessions find which faults",
    "",
    `Printed by \`conformance/coverage.js\`. The faults are those of \`conformance/faults.js\`, ${finders.length} in all. A session finds a fault where a line of the faulty port differs from ot.js' own.`,
    "",
    `\`otbench port --every 3\` tries all stages of the small sessions. They find ${inStages.length} faults together:`,
    "",
    "| Stage | Options of `generate --every` | Sessions | Faults found first |",
    "|---|---|---|---|",
    ...STAGES.map(stage),
    "",
    `Of the ${corpus.length} sessions of the corpus that one is named which finds this fault and the fewest others; of the small sessions the first, by its stage and its number there.`,
    "",
    "| Fault | Session of the corpus | Small session |",
    "|---|---|---|",
    ...inStages.map(row),
    "",
    "The other faults are about texts, sizes, messages or a state that several sessions share. The corpus alone finds them:",
    "",
    "| Session of the corpus | Faults |",
    "|---|---|",
    ...[...others].map(([name, faults]) => `| ${name} | ${faults.join(", ")} |`),
    "",
  ].join("\n");
}
