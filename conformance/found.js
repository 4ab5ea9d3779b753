#!/usr/bin/env node
/*
 * How soon sessions made at random find each fault of faults.js, and how small they are reduced.
 *
 *     node conformance/found.js [--seeds N] [--sessions N] [FAULT ..]
 *
 * For each fault and each of N seeds (3): the first of --sessions (100) sessions in which ot.js with the fault parts from ot.js, and the instructions that are left
 * of it after at most ten seconds. Printed are the medians over the seeds, and of how many seeds a fault was not found.
 */

import { parseArgs } from "node:util";
import { generate } from "../npm/otbench.mjs";
import { reduced } from "../common/reduce.mjs";
import { valuesOf, withOneUnitEach } from "../common/schedule.mjs";
import { randomBy } from "../ports/sessions.mjs";
import { bugs, leaks } from "./faults.js";
import { comparable, faultyPort, firstDifference } from "./lines.js";

const REDUCE_MS = 10_000;

/* How many instructions are left of a session in which a port parts from ot.js. */
async function sizeOf(schedule, place, port) {
  const until = performance.now() + REDUCE_MS;
  const { values, textOf } = withOneUnitEach([schedule]);
  const firstShown = async (candidates) => {
    let number = 0;
    for (const [candidate] of candidates) {
      if (performance.now() > until) return null;
      const needed = firstDifference(comparable(textOf(candidate)), port);
      if (needed !== null) return { number, sessions: [candidate], needed };
      number++;
    }
    return null;
  };
  const [small] = (await reduced(values, place, firstShown, () => performance.now() > until)).map(textOf);
  return valuesOf(small).instructions.length;
}

/* How many sessions it takes to find a fault, and the instructions that are left; or null. */
async function find(fault, sessions) {
  const port = faultyPort(bugs[fault]);
  const at = sessions.findIndex((session) => firstDifference(session, port) !== null);
  if (at < 0) return null;
  return { count: at + 1, size: await sizeOf(sessions[at].schedule, firstDifference(sessions[at], port), port) };
}

const middle = (numbers) => {
  const sorted = numbers.toSorted((one, other) => one - other);
  return (sorted[Math.floor((sorted.length - 1) / 2)] + sorted[Math.ceil((sorted.length - 1) / 2)]) / 2;
};

/* A row for the faults that as many sessions find. */
function row(count, faults) {
  const sizes = faults.map(({ size }) => size);
  return `| ${count} | ${[...new Set([Math.min(...sizes), Math.max(...sizes)])].join(" to ")} | ${faults.map(({ fault }) => fault).join(", ")} |`;
}

async function page({ seeds, sessions: count }, faults) {
  const ofSeeds = Array.from({ length: seeds }, (_, i) =>
    [...randomBy({ seed: (i + 1) * count, sessions: count }, generate)].map(({ schedule }) => ({ schedule, ...comparable(schedule) })));
  const [rows, missed] = [new Map(), new Map()];
  for (const fault of faults) {
    const found = [];
    for (const sessions of ofSeeds) found.push(await find(fault, sessions));
    const those = found.filter((it) => it !== null);
    const median = middle(those.map((it) => it.count));
    if (those.length > 0) rows.set(median, [...(rows.get(median) ?? []), { fault, size: middle(those.map((it) => it.size)) }]);
    if (those.length < seeds) missed.set(seeds - those.length, [...(missed.get(seeds - those.length) ?? []), fault]);
  }
  console.log(`# How soon each fault is found at random

Printed by \`conformance/found.js --seeds ${seeds}\`: at most ${count} sessions for each of ${seeds} seeds. Found means that a line of the faulty port is another than
ot.js' own. The numbers are medians over the seeds.

| Sessions to find it | Instructions after reducing | Faults |
|---|---|---|`);
  for (const [count, those] of [...rows].toSorted(([one], [other]) => one - other)) console.log(row(count, those));
  const lines = [...missed].toSorted(([one], [other]) => other - one).map(([count, names]) => `with ${count} of ${seeds} seeds: ${names.join(", ")}`);
  console.log(`\n${lines.length === 0 ? "Each is found" : `Not found ${lines.join("; ")}`}. Not tried, since one session cannot show it: ${Object.keys(leaks).join(", ")}. The corpus finds each fault ([COVERAGE](COVERAGE.md)).`);
}

const { values, positionals } = parseArgs({ allowPositionals: true, options: { seeds: { type: "string", default: "3" }, sessions: { type: "string", default: "100" } } });
const faults = positionals.length > 0 ? positionals : Object.keys(bugs).filter((name) => !Object.hasOwn(leaks, name));
const unknown = faults.find((name) => !Object.hasOwn(bugs, name));
if (unknown === undefined) await page({ seeds: Number(values.seeds), sessions: Number(values.sessions) }, faults);
else {
  console.error(`found: there is no fault ${unknown}`);
  process.exitCode = 2;
}
