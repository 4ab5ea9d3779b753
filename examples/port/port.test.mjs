// The driver prints what `otbench steps` prints, and each of the five faults shows where it should.

import assert from "node:assert/strict";
import { spawn, spawnSync } from "node:child_process";
import { once } from "node:events";
import fs from "node:fs";
import os from "node:os";
import path from "node:path";
import { test } from "node:test";
import { fileURLToPath } from "node:url";
import { makePort } from "../../oracle/otjs.js";
import { bugs } from "./bugs.js";
import { drive } from "./drive.js";

const OWN = fileURLToPath(import.meta.url);
const beside = (name) => path.join(path.dirname(OWN), name);
const example = (name) => fs.readFileSync(beside(`../${name}.ots`), "utf8");
const values = (lines) => lines.map((line) => JSON.parse(line));

test("the lines of a session", () => {
  const lines = values(drive(example("weak-order"), makePort()));
  assert.deepEqual(lines[0], { at: 0, clients: 2, present: 2, start: "x" });
  const first = { revision: 0, state: "awaiting-confirm", outstanding: [1, "z"], buffer: null, document: "xz" };
  assert.deepEqual(lines[1], { at: 1, do: "edit", client: 0, edit: [1, "z"], ...first, sent: { revision: 0, operation: [1, "z"] } });
  const taken = { revision: 0, operation: [1, "z"] };
  assert.deepEqual(lines[6], { at: 6, do: "take", client: 0, message: taken, revision: 2, appended: [2, "z"], document: "cxz" });
  const seventh = { revision: 1, state: "awaiting-with-buffer", outstanding: [2, "z"], buffer: ["a", 1, -1, 1], document: "acz" };
  assert.deepEqual(lines[7], { at: 7, do: "deliver", client: 0, message: ["c", 1], ...seventh, applied: [1, "c", 1] });
  assert.deepEqual(lines.slice(16), [{ at: 16, do: "read-server", document: "acz" }, { at: 16, end: "quiet" }]);
});

test("a message is printed as it came, whatever the port makes of it then", () => {
  const port = makePort();
  const receive = port.Server.prototype.receiveOperation;
  port.Server.prototype.receiveOperation = function (revision, operation) {
    return receive.call(this, revision, Object.assign(operation, new port.TextOperation().insert("?")));
  };
  const lines = values(drive('clients 2\nedit 0 ["a"]\ntake 0\ndeliver 1\nack 0\n', port));
  assert.deepEqual([lines[2].message, lines[2].appended], [{ revision: 0, operation: ["a"] }, ["?"]]);
  assert.deepEqual([lines[3].message, lines[4].message], [["?"], undefined]);
});

test("a message that the port throws over is printed", () => {
  const port = makePort();
  port.Server.prototype.receiveOperation = () => {
    throw new Error("no");
  };
  const lines = values(drive('clients 1\nedit 0 ["a"]\ntake 0\n', port));
  assert.deepEqual(lines[2], { at: 1, do: "take", client: 0, message: { revision: 0, operation: ["a"] }, stopped: "no" });
});

test("a late joiner, and documents where they are asked for", () => {
  const lines = values(drive(example("late-join"), makePort(), { short: true }));
  assert.deepEqual(lines[0], { at: 0, clients: 2, present: 1, start: "x" });
  const joined = { revision: 1, state: "synchronized", outstanding: null, buffer: null, document: "xa" };
  assert.deepEqual(lines[3], { at: 3, do: "join", client: 1, ...joined });
  assert.ok(lines.every((line) => line.document === undefined || line.do === "join"));
});

test("lengths count UTF-16 units, and texts come out as they went in", () => {
  const lines = values(drive('clients 1\nstart "𝒳y"\nedit 0 [2,"😀",1]\nedit 0 [4,"é",1]\n', makePort()));
  assert.deepEqual([lines[0].start, lines[1].edit, lines[1].document, lines[2].document], ["𝒳y", [2, "😀", 1], "𝒳😀y", "𝒳😀éy"]);
});

test("where an instruction cannot be performed the port's own words are printed", () => {
  const rows = [
    ["clients 2\ntake 0\n", "no message under way"],
    ["clients 2\ndeliver 0\n", "no message under way"],
    ['clients 2\nedit 0 ["a"]\ntake 0\ndeliver 0\n', "another message is at the head"],
    ["clients 2\npresent 1\nread 1\n", "has not joined"],
    ["clients 2\njoin 0\n", "has joined already"],
    ["clients 1\nedit 0 [1]\n", "The operation's base length must be equal to the string's length."],
  ];
  for (const [schedule, stopped] of rows) {
    const lines = values(drive(schedule, makePort()));
    assert.equal(lines.at(-2).stopped, stopped);
    assert.equal(lines.at(-2).at, lines.at(-1).at);
  }
});

/* Place, and what the port printed there. */
const SHOWN = {
  tie: [7, { buffer: [1, "a", -1, 1] }],
  "old-revision": [8, { sent: { revision: 1, operation: ["a", 1, -1, 1] } }],
  "buffer-kept": [7, { buffer: ["a", -1, 1] }],
  "whole-log": [9, { at: 8, stopped: "Both operations have to have the same base length" }],
  order: [3, { buffer: [-1, "a", 1] }],
};

test("each fault shows at its place, and not before", () => {
  const ours = drive(example("weak-order"), makePort());
  assert.deepEqual(Object.keys(SHOWN), Object.keys(bugs));
  for (const [name, [place, shown]] of Object.entries(SHOWN)) {
    const port = makePort();
    bugs[name](port);
    const lines = drive(example("weak-order"), port);
    assert.deepEqual(lines.slice(0, place), ours.slice(0, place), name);
    const found = JSON.parse(lines[place]);
    for (const key of Object.keys(shown)) assert.deepEqual(found[key], shown[key], `${name}: ${key}`);
  }
});

test("a byte order mark in front of a schedule is named", () => {
  const message = "the schedule begins with a byte order mark: write it without";
  assert.throws(() => drive(`\ufeff${example("weak-order")}`, makePort()), { message });
});

test("blanks about a line are dropped, those in a text are not, however many", () => {
  const blanks = " ".repeat(39990);
  const given = `clients 1\t\n  start "${blanks}" \t \nread 0${blanks}\n`;
  assert.equal(JSON.parse(drive(given, makePort())[0]).start, blanks);
});

test("the command line", () => {
  const options = { input: example("weak-order"), encoding: "utf8" };
  const call = (...words) => spawnSync("node", [beside("driver.js"), ...words], options);
  assert.equal(call("--short").stdout, drive(example("weak-order"), makePort(), { short: true }).join("\n") + "\n");
  const refused = call("--bug", "none");
  assert.equal(refused.stderr, "driver: no such bug; there are tie, old-revision, buffer-kept, whole-log, order\n");
  assert.equal(refused.status, 1);
});

test("several sessions in one process, each ended by a line %%", async () => {
  const child = spawn("node", [beside("driver.js"), "--keep"], { stdio: ["pipe", "pipe", "inherit"] });
  let printed = "";
  child.stdout.setEncoding("utf8").on("data", (piece) => (printed += piece));
  const answered = async (count) => {
    while (printed.split("\n%%\n").length <= count) await new Promise((resolve) => child.stdout.once("data", resolve));
  };
  const linesOf = (name) => `${drive(example(name), makePort()).join("\n")}\n%%\n`;
  child.stdin.write(`${example("weak-order")}%%\n`);
  await answered(1);
  assert.equal(printed, linesOf("weak-order"), "its lines come before the next session is given");
  child.stdin.end(`${example("late-join")}%%\n${example("one-client")}%%\n`);
  const [status] = await once(child, "close");
  assert.deepEqual([status, printed], [0, linesOf("weak-order") + linesOf("late-join") + linesOf("one-client")]);
});

/* Beside a program that takes no schedule. */
test("`show_bugs` without a session is one line", () => {
  const tree = fs.mkdtempSync(path.join(os.tmpdir(), "otbench port "));
  const shown = path.join(tree, "examples/port/show_bugs");
  fs.mkdirSync(path.dirname(shown), { recursive: true });
  fs.copyFileSync(beside("show_bugs"), shown);
  fs.writeFileSync(path.join(tree, "otbench"), "#!/bin/sh\necho 'otbench: line 1: NoClients' >&2\nexit 1\n", { mode: 0o755 });
  const env = { ...process.env, OTBENCH: "" };
  const call = (...words) => spawnSync(shown, words, { encoding: "utf8", env });
  for (const words of [["nosuch"], ["--help"], [tree], [""], [OWN, OWN]]) {
    const { status, stdout, stderr } = call(...words);
    const usage = `usage: examples/port/show_bugs [SESSION], and '${words.join(" ")}' is no file that can be read\n`;
    assert.deepEqual([status, stdout, stderr], [2, "", usage]);
  }
  const { status, stdout, stderr } = call(OWN);
  assert.deepEqual([status, stdout, stderr], [1, "", "otbench: line 1: NoClients\n"]);
  fs.rmSync(tree, { recursive: true });
});
