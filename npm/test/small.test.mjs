// All small sessions: the stages, trying them, looking for a failure among them, and what is said of it.

import assert from "node:assert/strict";
import { spawnSync } from "node:child_process";
import fs from "node:fs";
import path from "node:path";
import { test } from "node:test";
import { bugs } from "../../conformance/faults.js";
import { makePort } from "../../oracle/otjs.js";
import { roundsOf } from "../../ports/conforming.mjs";
import { conformsOptions } from "../../ports/options.mjs";
import * as bench from "../otbench.mjs";
import { valuesOf } from "../../common/schedule.mjs";
import { IN_ONE } from "../../ports/porting.mjs";
import { dueStages, isSmall, smallSessions, spacesOf, STAGES, toldOf, untriedLines } from "../../ports/small.mjs";
import { conforms, corpus } from "../../ports/testing.mjs";
import { temporaryFolder, TOP } from "./files.mjs";

const folder = temporaryFolder();
const CLI = path.join(TOP, "command/cli.mjs");
const SAMPLE = ["node", path.join(TOP, "examples/port/driver.js"), "--faults", path.join(TOP, "conformance/faults.js")];
const ALL_OF_XY = 'every session of 2 clients with up to 2 edits over "xy"';

function faulty(name) {
  const port = makePort();
  bugs[name](port);
  return port;
}

const failing = (subject, options) => conforms(subject, options).then(() => assert.fail("it conforms"), (error) => error);

function port(options, driver) {
  const { OTBENCH, ...env } = process.env;
  return spawnSync(process.execPath, [CLI, "port", ...options, "--", ...driver], { env, encoding: "utf8", cwd: folder, maxBuffer: 1 << 26 });
}

const SMALL = STAGES.filter(({ edits }) => edits === 2);
const LARGER = STAGES.filter(({ edits }) => edits === 3);
const countOf = (stages) => stages.reduce((sum, { count }) => sum + count, 0);

test("each stage has as many sessions as the table says, smallest first, each performed whole, quiet, and with its reads", () => {
  for (const stage of SMALL) {
    const sessions = [...smallSessions(bench, stage)];
    assert.equal(sessions.length, stage.count, toldOf(stage));
    assert.equal(new Set(sessions).size, sessions.length);
    const sizes = sessions.map((text) => valuesOf(text).instructions.filter(({ word }) => word === "edit").length);
    assert.deepEqual(sizes, sizes.toSorted());
    for (const text of sessions.filter((_, number) => number % 40 === 0)) {
      const { stopped, quiet, reads } = bench.run(text);
      assert.deepEqual([stopped, quiet, reads.length], [null, true, stage.clients + 1], text);
      assert.equal(new Set(reads.map(({ document }) => document)).size, 1);
    }
  }
});

test("what a stage is, in words", () => {
  assert.deepEqual([{ clients: 2, edits: 2, start: "xy" }, { clients: 2, edits: 3, start: "", letters: 2 }, { clients: 3, edits: 2, start: 'a"', join: true }].map(toldOf), [
    ALL_OF_XY,
    'every session of 2 clients with up to 3 edits over "", insertions of 2 letters',
    'every session of 3 clients, the last of whom joins late, with up to 2 edits over "a\\""',
  ]);
  for (const { said, sessions } of spacesOf({ generate: () => "clients 1\n%%\nclients 2\n%%\n" }, STAGES)) {
    assert.deepEqual([...sessions], [{ name: `session 1 of ${said}`, schedule: "clients 1\n" }, { name: `session 2 of ${said}`, schedule: "clients 2\n" }]);
    assert.ok(isSmall(`session 2 of ${said}`));
  }
  assert.ok(![...corpus()].some(({ name }) => isSmall(name)) && !isSmall("session of seed 7"));
});

test("the first stage is due, and later ones as far as time or number allow", () => {
  let time = 0;
  const isDue = dueStages((milliseconds) => milliseconds <= 5000, () => time);
  assert.ok(isDue({ count: 100 }));
  time = 1000;
  assert.ok(isDue({ count: 400 }));
  time = 3000;
  assert.ok(!isDue({ count: 500 }));
  const few = dueStages((milliseconds, sessions) => sessions <= 400);
  assert.deepEqual([97, 277, 598].map((count) => few({ count })), [true, true, false]);
});

test("which small sessions are tried", () => {
  const usual = { edits: 2, fits: () => true };
  const stagesOf = (options) => {
    const { rounds, spaces } = roundsOf(conformsOptions(options), bench, usual);
    return [rounds.filter(({ stage, isDue }) => stage && isDue()).length, spaces.length];
  };
  assert.deepEqual(stagesOf({}), [SMALL.length, STAGES.length]);
  assert.deepEqual(stagesOf({ every: 3 }), [STAGES.length, STAGES.length]);
  assert.deepEqual(stagesOf({ every: 1 }), [0, STAGES.length]);
  assert.deepEqual(stagesOf({ every: 0 }), [0, STAGES.length]);
  assert.deepEqual(stagesOf({ corpus: false }), [0, STAGES.length]);
  assert.deepEqual(stagesOf({ corpus: false, every: 2 }), [SMALL.length, STAGES.length]);
});

test("what was covered is given and said exactly", async () => {
  const names = [];
  const result = await conforms(makePort(), { corpus: false, every: 2, sessions: 1, onSession: ({ name }) => names.push(name) });
  assert.deepEqual(result.every, SMALL.map((stage) => ({ said: toldOf(stage), sessions: stage.count })));
  assert.deepEqual(result.untried, LARGER.map((stage) => ({ said: toldOf(stage), sessions: stage.count, every: 3 })));
  assert.equal(result.sessions, countOf(SMALL) + 1);
  assert.equal(result.compared.end, result.sessions);
  assert.deepEqual([names.length, names[0], names.at(-1)], [countOf(SMALL) + 1, `session 1 of ${toldOf(SMALL[0])}`, "session of seed 1"]);
});

const namesOf = (stages) => stages.map((stage) => `${toldOf(stage)}: ${stage.count.toLocaleString("en")}`).join("; ");

test("what was not tried is said, with what asks for it, in words and in TAP and JUnit", async () => {
  const [lines, file] = [[], path.join(folder, "untried.xml")];
  const { every, untried } = await conforms(makePort(), { corpus: false, sessions: 1, tap: (line) => lines.push(line), junit: file });
  assert.deepEqual([every, untried.map((it) => it.sessions)], [[], STAGES.map(({ count }) => count)]);
  const said = [`not tried, every: 2 asks for it: ${namesOf(SMALL)}`, `not tried, every: 3 asks for it: ${namesOf(LARGER)}`];
  assert.deepEqual(lines.filter((line) => line.includes("not tried")), said.map((line) => `# ${line}`));
  const xml = fs.readFileSync(file, "utf8").replaceAll("&quot;", '"');
  for (const line of said) assert.ok(xml.includes(`\n${line}`), line);
  assert.deepEqual(untriedLines([], "--every "), []);
});

test("a kept driver has no fewer small sessions than one with a process for each session, however slow it is", () => {
  let time = 0;
  const isDue = dueStages(IN_ONE.fits, () => time);
  const due = STAGES.map((stage) => isDue(stage, (time += 60_000)));
  assert.deepEqual(due, STAGES.map((_, at) => at < 2));
});

test("a small session that fails ends the run, is the smallest, and is reduced", async () => {
  const error = await failing(faulty("transform-delete-equal"), { corpus: false, every: 2, sessions: 1, reduceSeconds: 12 });
  const [, number, said] = /^session (\d+) of (.*)$/.exec(error.session);
  assert.ok(STAGES.map(toldOf).includes(said) && Number(number) > 1);
  assert.match(error.message, /^session \d+ of every session of [^\n]*: \d+ instructions, here reduced to \d+\n\nclients 2\n/);
  assert.match(error.message, /\nas it was found it is session \d+ of every session of [^\n]*\n$/);
});

test("a failure of the corpus or at random is looked for among the small sessions; what does not show there is reduced as it was found", async () => {
  for (const options of [{ sessions: 1 }, { corpus: false, sessions: 20 }]) {
    const error = await failing(faulty("tie"), { ...options, reduceSeconds: 60 });
    assert.match(error.message, /: \d+ instructions, here reduced to 4\n\nclients 2\n/);
    assert.match(error.message, /\nof all small sessions the first that fails so is session \d+ of every session of 2 clients with up to 2 edits over [^\n]*\n/);
  }
  const without = await failing(faulty("tie"), { every: 0, sessions: 1, reduceSeconds: 1 });
  assert.ok(!without.message.includes("of all small sessions"));
  const text = await failing(faulty("texts-escaped"), { reduceSeconds: 12 });
  assert.match(text.message, /^characters-of-markup: \d+ instructions, here reduced to 1\n/);
  assert.ok(!text.message.includes("of all small sessions"));
});

test("all: of each kind a small session is told before one of the corpus, and kinds that are known are tolerated there", async () => {
  const error = await failing(faulty("tie"), { corpus: false, every: 2, sessions: 3, all: true, reduceSeconds: 0.2 });
  const first = error.failures.filter(({ error: its }) => isSmall(its.session));
  assert.ok(first.length > 0);
  const known = [...error.failures.map(({ kind }) => kind), "server-with-operations"];
  const result = await conforms(faulty("tie"), { corpus: false, every: 2, sessions: 3, known });
  assert.ok(result.every.at(-1).sessions < STAGES.find(({ start, edits }) => start === "xy" && edits === 2).count);
});

test("TAP and JUnit have one point for each stage", async () => {
  const lines = [];
  const file = path.join(folder, "report.xml");
  const port = faulty("receive-skips-one");
  await failing(port, { corpus: false, every: 2, sessions: 1, reduceSeconds: 0, known: ["take: appended"], tap: (line) => lines.push(line), junit: file });
  const points = lines.filter((line) => /^(?:not )?ok \d+ - every /.test(line));
  assert.equal(points.length, SMALL.length);
  assert.match(points.at(-1), /^not ok \d+ - every .* over "xy": [\d,]+ of 1,279 conform$/);
  assert.equal(lines.filter((line) => line.startsWith("  ---")).length, lines.filter((line) => line.startsWith("not ok")).length);
  const xml = fs.readFileSync(file, "utf8");
  assert.equal((xml.match(/<testcase classname="small sessions" name="every /g) ?? []).length, SMALL.length);
  assert.match(xml, /<failure message="differs at \d+: /);
});

test("otbench port: what was covered, with a process each and in one", () => {
  const each = port(["--utf16", "--no-corpus", "--sessions", "1"], SAMPLE);
  assert.match(each.stdout, /^at random: 1 session conforms\ncompared /, each.stderr);
  assert.ok(each.stdout.includes(`\nnot tried, --every 2 asks for it: ${namesOf(SMALL)}\nnot tried, --every 3 asks for it: ${namesOf(LARGER)}\n`), each.stdout);
  const kept = port(["--utf16", "--no-corpus", "--every", "2", "--sessions", "1", "--keep-driver"], [...SAMPLE, "--keep"]);
  const said = SMALL.map((stage) => `${toldOf(stage)}: ${stage.count.toLocaleString("en")} conform\n`).join("");
  assert.ok(kept.stdout.startsWith(`${said}at random: 1 session conforms\ncompared `), kept.stdout + kept.stderr);
  assert.ok(kept.stdout.endsWith(`\nnot tried, --every 3 asks for it: ${namesOf(LARGER)}\n`), kept.stdout);
  const failed = port(["--utf16", "--no-corpus", "--every", "2", "--sessions", "1", "--keep-driver", "--reduce-seconds", "2"], [...SAMPLE, "--keep", "--bug", "old-revision"]);
  assert.match(failed.stdout, /^fails: session \d+ of every session of [^\n]*: \d+ instructions(?:, here reduced to \d+)?\n/, failed.stderr);
  assert.equal(failed.status, 1);
});
