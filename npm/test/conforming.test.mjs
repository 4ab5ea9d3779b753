// otbench/testing: all failures, kinds that are known, what is needed, who is told, what ends a run, TAP and JUnit; here and in a worker.

import assert from "node:assert/strict";
import fs from "node:fs";
import path from "node:path";
import { test } from "node:test";
import { bugs } from "../../conformance/faults.js";
import { makePort } from "../../oracle/otjs.js";
import { steps } from "../otbench.mjs";
import { conforms, corpus, laws } from "../../ports/testing.mjs";
import { temporaryFolder } from "./files.mjs";

const folder = temporaryFolder();
const module = (name) => new URL(`ports/${name}`, import.meta.url);
const SHORT = { corpus: false, sessions: 12, reduceSeconds: 0.3 };

function faulty(name) {
  const port = makePort();
  bugs[name](port);
  return port;
}

const failing = (subject, options) => conforms(subject, options).then(() => assert.fail("it conforms"), (error) => error);

test("all: each kind with its sessions, the shortest of each reduced, and a message of 60 lines at most", async () => {
  const error = await failing(faulty("tie"), { ...SHORT, all: true });
  assert.equal(error.code, "ERR_ASSERTION");
  assert.match(error.message, /^\d+ sessions fail; by their kinds:\n {4}[\w.]+: [\w ]+: \d+\n/);
  assert.ok(error.message.trimEnd().split("\n").length <= 60);
  const kinds = error.failures.map(({ kind }) => kind);
  assert.equal(new Set(kinds).size, kinds.length);
  assert.deepEqual(error.failures.map(({ sessions }) => sessions), error.failures.map(({ sessions }) => sessions).sort((one, other) => other - one));
  for (const { kind, error: its } of error.failures) {
    assert.equal(its.kind, kind);
    assert.match(its.message, /instructions(?:, here reduced to \d+)?\n/);
  }
  assert.deepEqual([error.kind, error.schedule, error.answer], [kinds[0], error.failures[0].error.schedule, error.failures[0].error.answer]);
});

test("known: kinds are tolerated and counted, others fail", async () => {
  const { failures } = await failing(faulty("tie"), { ...SHORT, all: true });
  const known = failures.map(({ kind }) => kind);
  const result = await conforms(faulty("tie"), { ...SHORT, known: [...known, "read: document", "server-with-operations"] });
  assert.deepEqual(result.known, { ...Object.fromEntries(failures.map(({ kind, sessions }) => [kind, sessions])), "read: document": 0 });
  assert.ok(result.sessions < 12);
  const error = await failing(faulty("tie"), { ...SHORT, known: known.slice(1) });
  assert.equal(error.kind, known[0]);
});

test("known: laws and kinds together", async () => {
  const port = makePort();
  port.TextOperation.prototype.isNoop = () => true;
  const result = await conforms(port, { ...SHORT, known: ["isNoop", "read: document"] });
  assert.deepEqual(result.laws, laws.filter((law) => law !== "isNoop"));
});

test("need: a document of each client and of the server, unless it is said otherwise", async () => {
  const without = (dropped) => (schedule) => steps(schedule, { documents: true }).map((line) => (dropped(line) ? { ...line, document: undefined } : line));
  const ofServer = without((line) => line.do === "take" || line.do === "read-server");
  assert.match((await failing(ofServer, SHORT)).message, /^never compared: document of the server in 12 of 12 sessions$/);
  assert.equal((await conforms(ofServer, { ...SHORT, need: ["sent"] })).sessions, 12);
  assert.match((await failing(without(() => true), SHORT)).message, /^never compared: document$/);
  assert.match((await failing((schedule) => steps(schedule), { ...SHORT, need: ["message", "sent"] })).message, /^never compared: message$/);
  assert.equal((await conforms(makePort(), { ...SHORT, need: ["message", "document"] })).sessions, 12);
});

test("onSession: each session in its order, whether it conforms, and of which kind its failure is", async () => {
  const told = [];
  await failing(faulty("tie"), { ...SHORT, all: true, onSession: (it) => told.push(it) });
  assert.equal(told.length, 12);
  assert.ok(told[0].schedule.startsWith("clients "));
  assert.deepEqual(told.map(({ name }) => /seed (\d+)/.exec(name)[1]), [...Array(12).keys()].map((number) => String(number + 1)));
  for (const { conforms: isFine, kind, known } of told) assert.deepEqual([isFine, known], [kind === null, false]);
});

test("signal: the promise is rejected with its reason, also while a session does not end", async () => {
  const reason = new Error("enough");
  await assert.rejects(conforms(makePort(), { ...SHORT, signal: AbortSignal.abort(reason) }), reason);
  const port = makePort();
  port.Client.prototype.serverAck = () => new Promise(() => {});
  const controller = new AbortController();
  setTimeout(() => controller.abort(reason), 50);
  await assert.rejects(conforms(port, { seconds: 1000, signal: controller.signal }), reason);
});

const pointsOf = (lines) => lines.filter((line) => /^(?:not )?ok /.test(line));

test("tap: a test point for each session and law, and one for the run", async () => {
  const lines = [];
  await conforms(makePort(), { ...SHORT, tap: (line) => lines.push(line) });
  assert.equal(lines[0], "TAP version 13");
  assert.equal(lines.at(-1), `1..${12 + laws.length + 1}`);
  assert.deepEqual(pointsOf(lines).slice(-2), [`ok ${12 + laws.length} - law ${laws.at(-1)}`, `ok ${13 + laws.length} - what is needed was compared, and the driver ended well`]);
  const failed = [];
  const error = await failing(faulty("tie"), { ...SHORT, tap: (line) => failed.push(line) });
  assert.equal(error.failures.length, new Set(error.failures.map(({ kind }) => kind)).size);
  assert.equal(pointsOf(failed).filter((line) => /^not ok \d+ - session/.test(line)).length, error.failures.reduce((sum, { sessions }) => sum + sessions, 0));
  assert.ok(failed.every((line) => !line.includes("\n")));
});

test("tap: a name with # and a backslash, and a law that is broken", async () => {
  const port = makePort();
  port.TextOperation.prototype.equals = () => true;
  const lines = [];
  const error = await failing(port, { ...SHORT, tap: (line) => lines.push(line) });
  assert.ok(error.laws.equals);
  assert.ok(lines.some((line) => /^not ok \d+ - law equals$/.test(line)));
});

test("junit: XML with what the port throws in it, whatever that has", async () => {
  const port = makePort();
  port.Server.prototype.receiveOperation = () => {
    throw new Error(`<b>&"'\u0000\ud800]]> ${"x".repeat(50_000)}`);
  };
  const junit = path.join(folder, "a.xml");
  await failing(port, { ...SHORT, junit });
  const xml = fs.readFileSync(junit, "utf8");
  assert.match(xml, /^<\?xml version="1\.0" encoding="UTF-8"\?>\n<testsuite name="conformance" tests="22" failures="14" skipped="0">/);
  assert.ok(xml.isWellFormed() && !xml.includes("\0") && !xml.includes("<b>") && xml.includes("&lt;b&gt;&amp;"));
});

test("junit: a file that cannot be written does not hide what fails", async () => {
  const junit = path.join(folder, "none/a.xml");
  assert.ok((await failing(faulty("tie"), { ...SHORT, junit })).failures.length > 0);
  assert.match((await failing(makePort(), { ...SHORT, junit })).message, /^the report could not be written: ENOENT/);
});

test("hostile words: texts of 100,000 characters, marks of direction and words of Object.prototype stay in few lines", async () => {
  const said = `</testcase>\u202e__proto__ constructor ${"x".repeat(100_000)}`;
  const port = makePort();
  port.Server.prototype.receiveOperation = () => {
    throw new Error(JSON.parse(`"${said}"`));
  };
  const [junit, lines] = [path.join(folder, "hostile.xml"), []];
  const error = await failing(port, { ...SHORT, junit, tap: (line) => lines.push(line) });
  const xml = fs.readFileSync(junit, "utf8");
  for (const text of [error.message, xml, lines.join("\n")]) assert.ok(!text.includes("\u202e") && text.length < 60_000, String(text.length));
  assert.ok(lines.every((line) => line.length < 400));
  assert.equal(xml.match(/<\/testcase>/g).length, 14);
  const known = ["constructor: toString", "__proto__: x"];
  assert.deepEqual((await conforms(makePort(), { ...SHORT, known })).known, Object.fromEntries(known.map((kind) => [kind, 0])));
});

test("a worker: onSession, tap, signal, all and known are as here", async () => {
  const [told, lines] = [[], []];
  const result = await conforms(module("otjs.mjs"), { ...SHORT, sessions: 3, onSession: (it) => told.push(it.conforms), tap: (line) => lines.push(line) });
  assert.deepEqual([result.sessions, told], [3, [true, true, true]]);
  assert.equal(pointsOf(lines).length, 3 + laws.length + 1);
  const error = await failing(module("throws.mjs"), { ...SHORT, all: true });
  assert.ok(error.failures.every((it) => it.error instanceof assert.AssertionError && it.kind === it.error.kind), error.message);
  const known = error.failures.map(({ kind }) => kind);
  assert.equal((await conforms(module("throws.mjs"), { ...SHORT, known: [...known, "invert"] }).catch((fault) => fault.laws ?? {})).invert, undefined);
  const reason = new Error("enough");
  const controller = new AbortController();
  setTimeout(() => controller.abort(reason), 300);
  await assert.rejects(conforms(module("hangs.mjs"), { seconds: 1000, signal: controller.signal }), reason);
});

test("a port that was made by a stranger: a fault of each kind of session of the corpus is found by it", async () => {
  const found = ["buffer-up-to-200-edits", "texts-without-joiners", "texts-with-one-line-end", "lengths-up-to-100000", "log-cut-at-3000"];
  for (const name of found) {
    const error = await failing(faulty(name), { sessions: 1, reduceSeconds: 0 });
    assert.ok([...corpus()].some((it) => it.name === error.session), `${name}: ${error.session}`);
  }
});
