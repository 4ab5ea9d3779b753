/*
 * Says whether ot.js' lines of each session of the corpus are what `otbench steps` prints.
 *
 *     conformance/check [--otbench PROGRAM]
 *
 * Without --otbench the program is the one that OTBENCH names, or the repository's. The last line says how many sessions passed and failed; the status is 1
 * where one failed, and 2 where a word is not understood or there is no program.
 */

import { spawnSync } from "node:child_process";
import fs from "node:fs";
import { fileURLToPath } from "node:url";
import { parseArgs } from "node:util";
import { storedCorpus } from "./finders.js";
import { stepsOf } from "./lines.js";
import { programPath } from "./program.js";
import { large } from "../ports/large.mjs";

const MOST_BYTES = 1 << 26;

const beside = (name) => fileURLToPath(new URL(name, import.meta.url));

const USAGE = `usage: conformance/check [--otbench PROGRAM]
Says whether ot.js' lines of each session of the corpus are what 'otbench steps' prints.`;

/* What the program prints of a schedule, or null where it does not end well. */
function printedBy(program, schedule) {
  const { status, stdout } = spawnSync(program, ["steps"], { input: schedule, encoding: "utf8", maxBuffer: MOST_BYTES });
  return status === 0 ? stdout : null;
}

/* The sessions, each with its lines: those that stand beside it, or that ot.js has. */
function* sessions() {
  for (const { name, text } of storedCorpus()) yield { name, text, lines: fs.readFileSync(beside(`sessions/${name}.jsonl`), "utf8") };
  for (const { name, schedule } of large()) yield { name, text: schedule, lines: stepsOf(schedule) };
}

function check(program) {
  const failed = [];
  let passed = 0;
  for (const { name, text, lines } of sessions()) {
    if (printedBy(program, text) === lines) passed++;
    else failed.push(name);
  }
  for (const name of failed) console.log(`${name}: steps prints other lines`);
  console.log(`corpus: ${passed} passed, ${failed.length} failed`);
  return failed.length > 0 ? 1 : 0;
}

try {
  const { values } = parseArgs({ options: { otbench: { type: "string" }, help: { type: "boolean", short: "h" } } });
  if (values.help) console.log(USAGE);
  else process.exitCode = check(values.otbench ?? programPath());
} catch (fault) {
  console.error(`check: ${fault.message}`);
  process.exitCode = 2;
}
