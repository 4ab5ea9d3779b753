// What `steps`, `conform` and `debug` of the program say of these sessions. Skipped where the program is not built; OTBENCH
// names another one.

import assert from "node:assert/strict";
import { spawnSync } from "node:child_process";
import fs from "node:fs";
import { test } from "node:test";
import { fileURLToPath } from "node:url";
import { bugs } from "../../examples/port/bugs.js";
import { merge } from "../../recorder/merging.js";
import { readEvents } from "../../recorder/logs.js";
import { liveSession } from "../../recorder/test/live_session.js";
import { textOf } from "../../common/document.mjs";
import { SERVER, fold } from "../../common/fold.mjs";
import { documentAt, logLengthAt, quietAt, stateAt } from "../../common/places.mjs";
import { example, linesOf, portLinesOf, seededSchedule } from "./sessions.mjs";

const program = process.env.OTBENCH || fileURLToPath(new URL("../../crates/otbench/out/otbench", import.meta.url));
const run = (word, input) => spawnSync(program, [word], { input, encoding: "utf8", maxBuffer: 1 << 28 });
const call = (word, input) => run(word, input).stdout;
const help = fs.existsSync(program) ? run("--help", "").stderr : "";
const skipWithout = (word) => ({ skip: help.includes(`\n  ${word} `) ? false : `the program is not built, or has no ${word}` });

const NAMES = ["weak-order", "both-delete", "buffer", "late-join", "one-client", "one-client-open", "two-clients"];
const schedules = () => [...NAMES.map(example), ...[1, 2, 3].map((seed) => seededSchedule({ seed, clients: 4, late: 1 }))];

/* What `otbench debug` shows at a place, from the fold. */
function shownAt(session, place) {
  const clients = [...session.members.keys()].map((client) => {
    const { revision, state } = stateAt(session, client, place);
    return `client ${client} rev ${revision} ${state} ${JSON.stringify(textOf(documentAt(session, client, place)))}\n`;
  });
  const server = `server rev ${logLengthAt(session, place)} ${JSON.stringify(textOf(documentAt(session, SERVER, place)))}\n`;
  return `${clients.join("")}${server}${quietAt(session, place) === "quiet" ? "quiet" : "not quiet"}\n`;
}

test("the fold at each place is what debug shows", skipWithout("debug"), () => {
  for (const schedule of schedules()) {
    const session = fold(linesOf(schedule));
    const places = Array.from({ length: session.length + 1 }, (_, place) => place);
    const commands = places.map((place) => (place ? "step 1\nshow" : "show")).join("\n");
    const expected = places.map((place) => (place ? `at ${place}: count\n` : "") + shownAt(session, place)).join("");
    assert.equal(call("debug", `${schedule}\n%%\n${commands}\n`), expected);
  }
});

test("the lines of steps are those of the driver", skipWithout("steps"), () => {
  for (const schedule of schedules()) {
    const ours = call("steps", schedule).trimEnd().split("\n").map((line) => JSON.parse(line));
    const theirs = linesOf(schedule).map((line) => JSON.parse(line));
    assert.equal(ours.length, theirs.length);
    for (const [i, line] of ours.entries()) for (const key of Object.keys(line)) assert.deepEqual(theirs[i][key], line[key]);
    fold(call("steps", schedule).trimEnd().split("\n"));
  }
});

test("ot.js and recorded sessions of it conform", skipWithout("conform"), () => {
  for (const schedule of schedules())
    assert.match(call("conform", `${schedule}\n%%\n${portLinesOf(schedule).join("\n")}\n`), /^conforms\n/);
  for (const kind of [{ clients: 5, late: 2 }, { wrapped: true }, { middle: true }, { cut: true }]) {
    const merged = merge(readEvents(liveSession({ seed: 9, ...kind }).log, "log"));
    assert.match(call("conform", [...merged.schedule, "%%", ...merged.lines].join("\n")), /^conforms\n/);
  }
});

/* What conform says of each fault: over examples/weak-order.ots, and where that is said over another session. */
const DELIVERED = ["rule AwaitingWithBuffer.applyServer", 'given outstanding [1,"z"]', 'given buffer ["a",-1,1]', 'given operation ["c",1]'];
const BEFORE = "note that is the revision before this acknowledgement";
const ANSWERS = [
  ["tie", "weak-order", ["differs at 7: deliver 0: client 0 buffer", 'found [1,"a",-1,1]', 'ot.js ["a",1,-1,1]', ...DELIVERED, "note that is what transform gives if the text of its second argument goes first"]],
  ["old-revision", "weak-order", ["differs at 8: ack 0: client 0 sent revision", "found 1", "ot.js 2", "rule AwaitingWithBuffer.serverAck", "given revision 1", 'given outstanding [2,"z"]', 'given buffer ["a",1,-1,1]', BEFORE]],
  ["old-revision", "buffer", ["differs at 5: ack 0: client 0 sent revision", "found 0", "ot.js 1", "rule AwaitingWithBuffer.serverAck", "given revision 0", 'given outstanding [2,"c"]', "given buffer [3]", BEFORE]],
  ["buffer-kept", "weak-order", ["differs at 7: deliver 0: client 0 buffer", 'found ["a",-1,1]', 'ot.js ["a",1,-1,1]', ...DELIVERED, "note that is the buffer as it was, not transformed"]],
  ["whole-log", "weak-order", ["differs at 9: take 0: stopped", 'found "Both operations have to have the same base length"', "ot.js performed", "rule Server.receiveOperation", "given revision 2", 'given operation ["a",1,-1,1]']],
  [
    "order",
    "weak-order",
    [
      "differs at 3: edit 0: client 0 buffer",
      'found [-1,"a",1]',
      'ot.js ["a",-1,1]',
      "rule AwaitingWithBuffer.applyClient",
      'given outstanding [1,"z"]',
      'given buffer [1,"a",1]',
      "given operation [-1,2]",
      "note the same effect in another form: ot.js keeps an insertion before a deletion and merges neighbours",
    ],
  ],
];

test("what conform says of each of the five faults", skipWithout("conform"), () => {
  for (const [name, session, answer] of ANSWERS) {
    const lines = portLinesOf(example(session), bugs[name]);
    const said = call("conform", `${example(session)}%%\n${lines.join("\n")}\n`);
    assert.equal(said, `${answer.join("\n")}\n`, name);
  }
});
