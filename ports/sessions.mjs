/* The sessions that a port is tried over. */

import { readdirSync, readFileSync, statSync } from "node:fs";
import path from "node:path";
import { OtbenchError } from "../npm/errors.mjs";
import { large } from "./large.mjs";
import { randomOptions } from "./options.mjs";
import { storedSessions } from "./stored.mjs";

const SEEDS = 1_000_000_000;

/* A text with a character that is not printable ASCII, or with an escape. */
const UNUSUAL = /^[^;].*"[^"]*[^\x20-\x5b\x5d-\x7e\r\n]/m;

/** The sessions of the corpus, each written for one rule: small ones first, and those about characters behind all others. */
export function* corpus() {
  const all = [...storedSessions(), ...large()];
  const unusual = new Map(all.map((session) => [session, Number(UNUSUAL.test(session.schedule))]));
  yield* all.sort((a, b) => unusual.get(a) - unusual.get(b) || a.schedule.length - b.schedule.length || (a.name < b.name ? -1 : 1));
}

const LONG_START = "A line of text, with e\u0301 and \r\n".repeat(10); // 300 characters
const MOST_INSTRUCTIONS = 100_000;

/* What is otherwise in the session of a seed, and is said of it: those that end with 9 have a longer text or a longer log. */
function varied(seed, { instructions = 60, start }) {
  const longer = seed % 100 === 99 ? 25 : seed % 20 === 19 ? 8 : 1;
  const count = Math.min(longer * instructions, MOST_INSTRUCTIONS);
  if (longer > 1) return { options: { instructions: count }, said: `, ${count} instructions` };
  if (seed % 20 === 9 && start === undefined) return { options: { start: LONG_START }, said: ", a longer start" };
  return { options: {}, said: "" };
}

/**
 * Sessions made at random: that of the seed and those of the seeds behind it.
 * @param {import("./testing.mjs").RandomOptions} options
 * @param {import("../npm/otbench.mjs").Bench["generate"]} generate
 */
export const randomBy = (options, generate) => made(randomOptions(options), generate);

function* made({ sessions = 100, seed: first = 1, ...given }, generate) {
  for (let number = first; number < first + sessions; number++) {
    const seed = number % SEEDS;
    const { options, said } = varied(seed, given);
    yield { name: `session of seed ${seed}${said}`, schedule: generate({ seed, ...given, ...options }) };
  }
}

const MARK = /^[ \t]*%%[ \t]*\r?(?:\n|$)/m;

/** A schedule's text without what stands behind a line `%%`. */
export const cutAtMark = (text) => text.split(MARK, 1)[0];

/* Whether a text's first line beside comments is that of a schedule, and none that a port printed. */
const isSchedule = (text) => /^[ \t]*clients\b/.test(text.split("\n").find((line) => !/^\s*(?:;|$)/.test(line)) ?? "");

/* The schedules of a file: the first, and of what stands behind lines `%%` each that is a schedule too. */
function schedulesIn(text) {
  const [first, ...others] = text.split(MARK);
  return [first, ...others.filter(isSchedule)];
}

/**
 * Sessions of one's own: of files, of which each may have several, and of the files .ots of folders. One that is no schedule is refused with its path.
 * @param {string[]} files
 * @param {import("../npm/otbench.mjs").Bench["run"]} run
 */
export function own(files, run) {
  const paths = files.flatMap((file) => (statSync(file).isDirectory() ? readdirSync(file).filter((name) => name.endsWith(".ots")).sort().map((name) => path.join(file, name)) : [file]));
  if (paths.length === 0) throw new OtbenchError("Usage", `${files.join(", ")}: the folder has no schedules, files *.ots`);
  const named = (file) => schedulesIn(readFileSync(file, "utf8")).map((schedule, at, { length }) => ({ name: length === 1 ? file : `${file}, session ${at + 1}`, schedule }));
  return paths.flatMap(named).map(({ name, schedule }) => {
    try {
      run(schedule);
    } catch (fault) {
      if (!(fault instanceof OtbenchError)) throw fault;
      throw new OtbenchError(fault.kind, `${name}: ${fault.message}`);
    }
    return { name, schedule };
  });
}
