// otbench/testing: what is said of a failure, how long reducing takes, and ports that hang.

import assert from "node:assert/strict";
import { readFileSync, writeFileSync } from "node:fs";
import path from "node:path";
import { test } from "node:test";
import { bugs } from "../../conformance/faults.js";
import { makePort } from "../../oracle/otjs.js";
import { run, steps } from "../otbench.mjs";
import { crowd } from "../../ports/pace.mjs";
import { aroundDifference } from "../../ports/report.mjs";
import { compare, conforms, corpus, random } from "../../ports/testing.mjs";
import { triedInWorker } from "../../ports/watching.mjs";
import { temporaryFolder } from "./files.mjs";

const folder = temporaryFolder();

function faulty(name) {
  const port = makePort();
  bugs[name](port);
  return port;
}

const failing = (subject, options) => conforms(subject, options).then(() => assert.fail("it conforms"), (error) => error);

const linesOf = (message) => message.trimEnd().split("\n");

/* ot.js with texts of so many characters at most: a longer one is cut. */
function capped(most) {
  const port = makePort();
  const { insert } = port.TextOperation.prototype;
  port.TextOperation.prototype.insert = function (text) {
    return insert.call(this, text.slice(0, most));
  };
  return port;
}

test("a candidate that otbench refuses is one that does not fail", async () => {
  for (const port of [capped(4096), faulty("lengths-of-16-bits")]) {
    const error = await failing(port, { sessions: 1, reduceSeconds: 1 });
    assert.equal(error.code, "ERR_ASSERTION", error.stack);
    assert.equal((await compare(port, error.schedule)).verdict, "differs");
  }
});

test("reducing ends within 3 seconds, and beside that the time of a session", async () => {
  for (const name of ["log-cut-at-1000", "buffer-up-to-32-edits"]) {
    const port = faulty(name);
    const only = (await failing(port, { reduceSeconds: 0 })).session;
    const { schedule } = [...corpus()].find((session) => session.name === only);
    const began = performance.now();
    await compare(port, schedule);
    const once = performance.now() - began;
    let found = 0;
    const driver = async (text) => {
      const { drive } = await import("../../ports/testing.mjs");
      if (text === schedule) found ||= performance.now();
      return drive(port, text);
    };
    await failing(driver);
    const took = performance.now() - found;
    assert.ok(took < 3000 + 4 * once + 500, `${name}: ${Math.round(took)} ms, a session ${Math.round(once)} ms`);
  }
});

test("the report has 60 lines at most, the whole schedule is in a file, and how to replay it is said", async () => {
  const saveTo = path.join(folder, "reduced.ots");
  const port = faulty("log-cut-at-1000");
  const error = await failing(port, { reduceSeconds: 0, saveTo });
  const lines = linesOf(error.message);
  assert.ok(lines.length <= 60, error.message);
  assert.match(error.message, /^; \.\. [\d,]+ lines$/m);
  assert.equal(readFileSync(saveTo, "utf8"), error.schedule);
  assert.equal(run(error.schedule).stopped, null);
  assert.ok(lines.includes(`the schedule is in ${saveTo}`), error.message);
  assert.ok(lines.includes(`to replay it: compare(port, readFileSync(${JSON.stringify(saveTo)}, "utf8")) of otbench/testing`));
  assert.equal(lines.at(-1), `as it was found it is ${error.session} of the corpus`);
  assert.deepEqual(await compare(port, readFileSync(saveTo, "utf8")), error.answer);
});

test("a long line is cut, and characters that show nothing are escaped", async () => {
  const long = await failing(capped(4096), { reduceSeconds: 0 });
  assert.ok(linesOf(long.message).every((line) => line.length < 400));
  assert.match(long.message, / \.\. \([\d,]+ characters\)$/m);
  const hidden = await failing(faulty("texts-without-spaces-of-no-width"));
  assert.match(hidden.message, /^edit 0 \["\\u(200b|2060)"\]$/m);
  assert.ok(!/[\u200b\u2060]/.test(hidden.message));
});

test("a session made at random is made again by the options that the report has", async () => {
  const port = faulty("tie");
  const error = await failing(port, { corpus: false, sessions: 20, seed: 5, clients: 3, instructions: 30 });
  const [, given] = /as it was found it is tried by conforms\(port, (.*)\)$/m.exec(error.message);
  const options = JSON.parse(given);
  assert.deepEqual([options.clients, options.instructions, options.sessions], [3, 30, 1]);
  assert.equal((await failing(port, options)).session, error.session);
  assert.equal([...random({ sessions: 1, seed: options.seed, clients: 3, instructions: 30 })][0].name, error.session);
});

test("a file that cannot be written does not hide the report", async () => {
  const error = await failing(faulty("tie"), { saveTo: path.join(folder, "none/here.ots") });
  assert.match(error.message, /^the schedule could not be saved: ENOENT/m);
  assert.match(error.message, /^differs at /m);
});

test("what the port throws is shown with its stack", async () => {
  const port = makePort();
  port.Server.prototype.receiveOperation = function noReceiver() {
    throw new RangeError("no receiver");
  };
  assert.match((await failing(port)).message, /^the port threw RangeError: no receiver\n {4}at .*noReceiver/m);
});

test("a promise that is never kept ends behind `seconds`, and its session and instruction are named", async () => {
  const port = makePort();
  port.Client.prototype.serverAck = () => new Promise(() => {});
  const began = performance.now();
  const error = await failing(port, { seconds: 0.3 });
  assert.ok(performance.now() - began < 5000 * crowd());
  assert.equal(error.answer, null);
  assert.match(error.session, /^[a-z-]+$/);
  assert.match(error.message, /^instruction \d+, ack, did not end within [\d.]+ seconds; a slow port is given more by the option seconds$/m);
  assert.match(error.schedule.trimEnd().split("\n").at(-1), /^ack \d$/);
});

const module = (name) => new URL(`ports/${name}`, import.meta.url);

test("a worker: a port that does not end is ended, and its session and instruction are named", async () => {
  const began = performance.now();
  const error = await failing(module("hangs.mjs"), { seconds: 1, sessions: 1 });
  assert.ok(performance.now() - began < 20_000 * crowd());
  assert.equal(error.code, "ERR_ASSERTION", error.stack);
  assert.ok([...corpus()].some(({ name }) => name === error.session));
  assert.match(error.message, /^instruction \d+, take, did not end within [\d.]+ seconds/m);
  assert.match(error.schedule.trimEnd().split("\n").at(-1), /^take \d$/);
  assert.ok(error.schedule.includes("-"));
});

/* A module that does something before it is ot.js. */
function late(name, before) {
  const file = path.join(folder, name);
  writeFileSync(file, `${before}\nexport { TextOperation, Client, Server } from ${JSON.stringify(module("otjs.mjs").href)};\n`);
  return new URL(`file://${file}`);
}

test("a worker: loading the module does not count, and where that does not end it is named", async () => {
  const slow = late("slow.mjs", "Atomics.wait(new Int32Array(new SharedArrayBuffer(4)), 0, 0, 2000);");
  assert.equal((await conforms(slow, { corpus: false, every: 0, sessions: 1, seconds: 1 })).sessions, 1);
  const never = triedInWorker(late("never.mjs", "for (;;) continue;"), { seconds: 1 }, { begin: 100 });
  await assert.rejects(never, { name: "AssertionError", message: /^no session began within [\d.]+ seconds: loading .*never\.mjs did not end$/ });
});

test("a worker: of a session that conforms alone it is said that the port keeps state", async () => {
  const keeps = path.join(folder, "keeps.mjs");
  writeFileSync(keeps, `import { makePort } from ${JSON.stringify(new URL("../../oracle/otjs.js", import.meta.url).href)};
const port = makePort();
const { insert } = port.TextOperation.prototype;
let count = 0;
port.TextOperation.prototype.insert = function (text) {
  return insert.call(this, ++count > 400 ? "?".repeat(text.length) : text);
};
export const { TextOperation, Client, Server } = port;
`);
  const error = await failing(new URL(`file://${keeps}`), { corpus: false, every: 0, sessions: 20, reduceSeconds: 1 });
  assert.match(error.message, /\nalone, in a worker of its own, this session conforms: the port keeps state between sessions\n$/);
  const differs = await failing(module("throws.mjs"), { corpus: false, every: 0, sessions: 5, reduceSeconds: 1 });
  assert.doesNotMatch(differs.message, /alone, in a worker/);
});

test("a worker: a port that conforms, with its accessors", async () => {
  const here = await conforms(makePort(), { corpus: false, sessions: 3 });
  assert.deepEqual(await conforms(module("otjs.mjs"), { corpus: false, sessions: 3 }), here);
});

test("a worker: the error of a port that differs, or throws what cannot be sent, is the one of a port that is here", async () => {
  const error = await failing(module("throws.mjs"), { sessions: 1 });
  assert.equal(error.code, "ERR_ASSERTION");
  assert.match(error.message, /^the port threw RangeError: no deletions$/m);
  assert.match(String(error.cause), /no deletions/);
  assert.equal(error.answer.verdict, "differs");
  assert.equal(error.actual, error.answer.found);
  assert.ok(steps(error.schedule).length <= 4, error.schedule);
});

test("a worker: missing parts, a module that is not there, one that ends the process, accessors", async () => {
  await assert.rejects(conforms(module("differs.cjs")), { name: "TypeError", message: /^ {4}Server$/m });
  await assert.rejects(conforms(module("nosuch.mjs")), /nosuch\.mjs/);
  await assert.rejects(conforms(module("exits.mjs"), { corpus: false, sessions: 1 }), /the port has ended the worker, with status 3 in session of seed 1/);
  await assert.rejects(conforms(module("otjs.mjs"), { accessors: {} }), { kind: "Usage" });
  await assert.rejects(conforms(module("otjs.mjs"), { sessions: 0 }), { kind: "Usage" });
});

test("a worker: a driver as a module's default", async () => {
  const file = path.join(folder, "driver.mjs");
  writeFileSync(file, `import { steps } from ${JSON.stringify(new URL("../otbench.mjs", import.meta.url).href)};\nexport default (schedule) => steps(schedule);\n`);
  assert.equal((await conforms(new URL(`file://${file}`), { corpus: false, sessions: 2 })).sessions, 2);
});

test("long values are cut around their first difference, and its place is told", () => {
  const text = (end) => `["${"x".repeat(5000)}${end}",3]`;
  const around = (found, otjs, front = "", end = "") => aroundDifference(`${front}found ${found}\not.js ${otjs}\n${end}`, { found, otjs });
  const said = around(text("a"), text("\u{1f600}"), "differs at 1: edit 0: edit\n", "rule Synchronized.applyClient\n");
  assert.equal(said, [
    "differs at 1: edit 0: edit",
    `found .. ${"x".repeat(40)}a",3] (5,007 characters)`,
    `ot.js .. ${"x".repeat(40)}\u{1f600}",3] (5,007 characters)`,
    "these two lines differ from character 5,003 of the whole value on",
    "rule Synchronized.applyClient",
    "",
  ].join("\n"));
  assert.equal(around('"a"', '"b"'), 'found "a"\not.js "b"\n');
  assert.equal(aroundDifference("conforms\n", {}), "conforms\n");
  assert.match(around("1", text("")), /^found 1\not\.js \["x+ \.\. \(5,006 characters\)\nthese two lines differ from character 1 /);
});

test("lengths of a session with characters past U+FFFF are told to be in scalars", async () => {
  const port = faulty("insert-counts-code-points");
  const error = await failing(port, { corpus: false, every: 0, reduceSeconds: 1 });
  assert.match(error.message, /^lengths are in Unicode scalar values here; your port was handed UTF-16 units$/m);
});

test("laws are tried behind the first round, and end the run where they are broken", async () => {
  const port = makePort();
  port.TextOperation.prototype.isNoop = () => true;
  const rounds = [];
  const onSession = ({ name }) => rounds.push(name.replace(/\d+/g, "N"));
  const error = await failing(port, { corpus: false, every: 2, sessions: 5, onSession });
  assert.ok(Object.hasOwn(error.laws, "isNoop"));
  assert.deepEqual([...new Set(rounds)], ['session N of every session of N clients with up to N edits over "", insertions of N letters']);
});
