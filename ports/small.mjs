/*
 * All small sessions, as `otbench generate --every` lists them: of a few clients and edits over a short document, the smallest first. A stage is every
 * session of one kind; the stages come one behind the other.
 *
 *     stages ── generate --every ──▶ sessions
 */

/**
 * @typedef {object} Stage
 * @property {number} clients
 * @property {number} edits of one session at most
 * @property {string} start the document at the beginning
 * @property {number} [letters] of each insertion
 * @property {boolean} [join] whether the last client joins late
 * @property {number} count how many these sessions are
 *
 * @typedef {{ said: string, stage: Stage, sessions: Iterable<import("./testing.mjs").Session> }} Space a stage in words, and its sessions
 */

/** @type {Stage[]} */
export const STAGES = [
  { clients: 2, edits: 2, start: "", letters: 2, count: 97 },
  { clients: 2, edits: 2, start: "x", count: 277 },
  { clients: 2, edits: 2, start: "x", join: true, count: 462 },
  { clients: 3, edits: 2, start: "x", count: 598 },
  { clients: 2, edits: 2, start: "xy", count: 1279 },
  { clients: 2, edits: 3, start: "", letters: 2, count: 9181 },
  { clients: 3, edits: 3, start: "", count: 4390 },
  { clients: 2, edits: 3, start: "x", count: 14_459 },
  { clients: 2, edits: 3, start: "xy", count: 118_939 },
];

/** The most edits of a stage. */
export const MOST_EDITS = Math.max(...STAGES.map(({ edits }) => edits));

/** What a stage is, in words. @param {Stage} stage */
export function toldOf({ clients, edits, start, letters = 1, join = false }) {
  const late = join ? ", the last of whom joins late," : "";
  const long = letters > 1 ? `, insertions of ${letters} letters` : "";
  return `every session of ${clients} clients${late} with up to ${edits} edits over ${JSON.stringify(start)}${long}`;
}

/**
 * What says of stages that they were not tried whole, and what asks for them: a line for each number of edits.
 * @param {import("./testing.mjs").Untried[]} untried
 * @param {string} option in front of a number of edits
 */
export function untriedLines(untried, option) {
  const numbers = [...new Set(untried.map(({ every }) => every))];
  const those = (edits) => untried.filter(({ every }) => every === edits).map(({ said, sessions }) => `${said}: ${sessions.toLocaleString("en")}`);
  return numbers.map((edits) => `not tried, ${option}${edits} asks for it: ${those(edits).join("; ")}`);
}

const END = "%%\n";

/**
 * The sessions of a stage.
 * @param {Pick<import("../npm/otbench.mjs").Bench, "generate">} program
 * @param {Stage} stage
 * @returns {Generator<string>}
 */
export function* smallSessions({ generate }, { clients, edits, start, letters, join }) {
  const listing = generate({ every: true, clients, edits, letters, join, ...(start !== "" && { start }) });
  let from = 0;
  for (let end; (end = listing.indexOf(END, from)) >= 0; from = end + END.length) yield listing.slice(from, end);
}

/** Whether this is the name of a small session. */
export const isSmall = (name) => /^session \d+ of every session of \d+ clients/.test(name);

/* The sessions of a stage with names, each time they are asked for. */
const namedSessions = (program, stage, said) => ({
  *[Symbol.iterator]() {
    let number = 0;
    for (const schedule of smallSessions(program, stage)) yield { name: `session ${++number} of ${said}`, schedule };
  },
});

/** The spaces of the stages. @returns {Space[]} */
export function spacesOf(program, stages) {
  return stages.map((stage) => {
    const said = toldOf(stage);
    return { said, stage, sessions: namedSessions(program, stage, said) };
  });
}

/**
 * What says of each stage, one behind the other, whether it is to be tried. The first one is; a later one if `fits` says so of the milliseconds that it would
 * end behind the beginning of the first, as far as those before tell, and of the number of all sessions then.
 * @param {(milliseconds: number, sessions: number) => boolean} fits
 * @param {() => number} now
 * @returns {(stage: Stage) => boolean}
 */
export function dueStages(fits, now = () => performance.now()) {
  let [began, sessions] = [null, 0];
  return ({ count }) => {
    began ??= now();
    const isDue = sessions === 0 || fits(((now() - began) * (sessions + count)) / sessions, sessions + count);
    if (isDue) sessions += count;
    return isDue;
  };
}
