/* The merge: one schedule of the participants' logs, and what cannot be merged is named. */

import assert from "node:assert/strict";
import { spawnSync } from "node:child_process";
import fs from "node:fs";
import os from "node:os";
import path from "node:path";
import { test } from "node:test";
import { fileURLToPath } from "node:url";
import { bugs } from "../../examples/port/bugs.js";
import { makePort } from "../../oracle/otjs.js";
import { drive } from "../../oracle/scalars.js";
import { decode } from "../files.js";
import { readEvents } from "../logs.js";
import { merge } from "../merging.js";
import { isWellFormed, toScalars } from "../scalars.js";
import { LiveSession, chance, liveSession } from "./live_session.js";

const mergeText = (text) => merge(readEvents(text, "log"));
const eventsOf = (log) => readEvents(log, "log");

/* What is said, without places in the log and the unit of lengths. */
const bare = (said) => said.replaceAll(/ \(log, line \d+\)| \(UTF-16 units\)/g, "");

/* The schedule without its last line, which says where the logs are cut, and that line's words. */
const instructionsOf = (schedule) => schedule.filter((line) => !line.startsWith("; cut: "));
const cutOf = (schedule) => JSON.parse(schedule.at(-1).replace("; cut: ", ""));

/* The first value that a participant logged and that ot.js has not, where the merged schedule is performed; null without. */
function firstDifference({ schedule, lines }) {
  const ours = drive(schedule.join("\n"), makePort()).map((line) => JSON.parse(line));
  for (const [i, text] of lines.entries()) {
    const line = JSON.parse(text);
    if (line.cut !== undefined) continue;
    const due = ours[i];
    const differs = (key) => JSON.stringify(line[key]) !== JSON.stringify(due[key] ?? null);
    const key = (line.stopped === undefined) !== (due.stopped === undefined) ? "stopped" : Object.keys(line).find(differs);
    if (key) return `${line.do} ${key}`;
  }
  return null;
}

/* The documents to which a schedule leads, by the names in its comments. */
function documentsAtEnd(schedule) {
  const names = schedule.filter((line) => line[0] === ";").map((line) => /^; client \d+ is (.*)$/.exec(line)[1]);
  const reads = [...names.map((_, client) => `read ${client}`), "read-server"];
  const lines = drive([...schedule, ...reads].join("\n"), makePort()).slice(-reads.length - 1, -1);
  return Object.fromEntries(lines.map((line, i) => [names[i] || "server", JSON.parse(line).document]));
}

const KINDS = { plain: {}, alone: { clients: 1 }, many: { clients: 8, late: 3 }, late: { late: 2 }, wrapped: { wrapped: true }, middle: { middle: true }, cut: { cut: true } };

for (const [name, kind] of Object.entries(KINDS))
  test(`seeded live sessions, ${name}: the schedule gives each participant the states that it had`, () => {
    for (let seed = 1; seed <= 6; seed++) {
      const { log, documents } = liveSession({ ...kind, seed });
      const merged = mergeText(log);
      assert.deepEqual([merged.fault, merged.notes, firstDifference(merged)], [null, [], null], `seed ${seed}`);
      assert.deepEqual(documentsAtEnd(merged.schedule), documents, `seed ${seed}`);
    }
  });

test("any order of the participants will do", () => {
  for (let seed = 1; seed <= 6; seed++) {
    const { log } = liveSession({ seed, clients: 5, late: 2 });
    const random = chance(seed + 100);
    const events = eventsOf(log).map((event) => ({ ...event, time: random(1e6) }));
    const merged = merge(events);
    assert.notDeepEqual(merged.schedule, mergeText(log).schedule);
    assert.deepEqual([merged.fault, firstDifference(merged)], [null, null]);
  }
});

test("a session of two, as a schedule", () => {
  const log = [
    { who: "server", n: 0, time: 1, do: "open", role: "server", revision: 4, document: "a😀" },
    { who: "server", n: 1, time: 5, do: "take", given: { revision: 4, operation: [3, "b"] }, revision: 5, appended: [3, "b"], document: "a😀b" },
    { who: "ann", n: 0, time: 2, do: "open", role: "client", revision: 4, state: "synchronized", document: "a😀" },
    { who: "ann", n: 1, time: 9, do: "edit", edit: [3, "b"], revision: 4, state: "awaiting-confirm", outstanding: [3, "b"], buffer: null, sent: { revision: 4, operation: [3, "b"] }, document: "a😀b" },
    { who: "ann", n: 2, time: 3, do: "ack", revision: 5, state: "synchronized", outstanding: null, buffer: null, document: "a😀b" },
    { who: "ben", n: 0, time: 7, do: "open", role: "client", revision: 5, state: "synchronized", document: "a😀b" },
    { who: "ben", n: 1, time: 8, do: "edit", edit: [1, -2, 1], revision: 5, state: "awaiting-confirm", outstanding: [1, -2, 1], buffer: null, sent: { revision: 5, operation: [1, -2, 1] }, document: "ab" },
  ];
  const { schedule, lines, notes, fault } = merge(log);
  assert.deepEqual(schedule, ["; client 0 is ann", "; client 1 is ben", "clients 2", "present 1", 'start "a😀"', 'edit 0 [2,"b"]', "take 0", "join 1", "ack 0", "edit 1 [1,-1,1]"]);
  assert.deepEqual([notes, fault], [[], null]);
  const told = lines.map((line) => JSON.parse(line));
  assert.deepEqual(told[0], { at: 0, clients: 2, present: 1, start: "a😀" });
  assert.deepEqual(told[2], { at: 2, do: "take", client: 0, message: { revision: 0, operation: [2, "b"] }, revision: 1, appended: [2, "b"], document: "a😀b" });
  assert.deepEqual(told[3], { at: 3, do: "join", client: 1, revision: 1, state: "synchronized", document: "a😀b" });
  const state = { revision: 1, state: "awaiting-confirm", outstanding: [1, -1, 1], buffer: null, sent: { revision: 1, operation: [1, -1, 1] } };
  assert.deepEqual(told[5], { at: 5, do: "edit", client: 1, edit: [1, -1, 1], ...state, document: "ab" });
});

test("a name stands in its comment as it is, or as a JSON string where it is no rest of a line", () => {
  const rows = [
    ["ben", "ben"],
    ["Ann B. (desk 2)", "Ann B. (desk 2)"],
    ["é😀", "é😀"],
    ["", '""'],
    [" ben", '" ben"'],
    ["ben\t", '"ben\\t"'],
    ["a\nedit 0 []", '"a\\nedit 0 []"'],
    ['"ben"', '"\\"ben\\""'],
    ["\ud83d", '"\\ud83d"'],
  ];
  for (const [who, named] of rows) {
    const { schedule } = merge([openings[0], { ...openings[1], who }]);
    assert.deepEqual(schedule, [`; client 0 is ${named}`, "clients 1"]);
  }
});

test("where the logs are cut the last line of the schedule and of the participants' lines says so", () => {
  const { schedule, lines, fault } = merge([...acknowledged, { ...take, n: 2, revision: 2, appended: [1, "a"], document: "aa" }]);
  assert.match(fault, /^server, event 2: take of /);
  assert.equal(cutOf(schedule), fault);
  assert.equal(lines.at(-1), JSON.stringify({ cut: fault }));
  const thrown = { who: "ann", n: 3, time: 4, do: "edit", edit: [1], stopped: "Error: two\nlines" };
  assert.equal(cutOf(merge([...acknowledged, thrown]).schedule), "ann, event 3: edit stopped: Error: two\nlines");
});

const program = process.env.OTBENCH || fileURLToPath(new URL("../../crates/otbench/out/otbench", import.meta.url));

test("otbench conform does not take a cut recording for a whole one", { skip: !fs.existsSync(program) }, () => {
  const conform = ({ schedule, lines }) => spawnSync(program, ["conform"], { input: [...schedule, "%%", ...lines, ""].join("\n"), encoding: "utf8" });
  const whole = conform(merge(acknowledged));
  assert.deepEqual([whole.status, whole.stdout.split("\n")[0]], [0, "conforms"]);
  const cut = conform(merge([...acknowledged, { ...take, n: 2, revision: 2, appended: [1, "a"], document: "aa" }]));
  assert.equal(cut.status, 1);
  assert.match(cut.stdout, /^differs at 3: /);
  assert.match(cut.stdout, /take of \[/);
});

/* Where each fault shows first: at whose value of which instruction. */
const SHOWS = {
  tie: /^(edit|deliver|take) (outstanding|buffer|applied|appended)$/,
  "old-revision": /^ack sent$/,
  "buffer-kept": /^deliver buffer$/,
  "whole-log": /^take (stopped|appended)$/,
  order: /^(edit|deliver) (outstanding|buffer)$/,
};

test("the five faults of ports show in what the participants logged", () => {
  for (const [name, plant] of Object.entries(bugs)) {
    const found = [];
    for (let seed = 1; seed <= 8; seed++) found.push(firstDifference(mergeText(liveSession({ seed, plant }).log)));
    const shown = found.filter((difference) => difference !== null);
    assert.ok(shown.length >= (name === "order" ? 1 : 4), `${name} in ${shown.length} of 8`);
    for (const difference of shown) assert.match(difference, SHOWS[name], name);
  }
});

test("UTF-16 units as scalars", () => {
  assert.deepEqual(toScalars([1, -2, "😀", 1], "a😀b"), [1, -1, "😀", 1]);
  const rows = [
    [[2, -2], "cuts the surrogate pair at unit 1 in two"],
    [[1, -1, 2], "cuts the surrogate pair at unit 1 in two"],
    [[4, "\ud83d"], "inserts half of a surrogate pair"],
    [[3], "has base length 3 over a document of 4 units"],
  ];
  for (const [operation, message] of rows) assert.throws(() => toScalars(operation, "a😀b"), { message });
  assert.deepEqual(["", "a😀", "\ud83d", "\ude00", "\ude00\ud83d", "😀\ude00"].map(isWellFormed), [true, true, false, false, false, false]);
});

test("an edit that cuts a surrogate pair in two is named, and the schedule ends before it", () => {
  const session = new LiveSession({ seed: 1, clients: 2 });
  session.run();
  const before = mergeText(session.lines.join("\n"));
  const [seat] = session.clients;
  const place = [...seat.document].length ? seat.document.search(/[\ud800-\udbff]/) + 1 : 0;
  assert.ok(place > 0);
  const { TextOperation } = session.port;
  session.apply(seat, new TextOperation().retain(place).insert("\ude01").delete(1).retain(seat.document.length - place - 1));
  const number = JSON.parse(session.lines.at(-1)).n;
  const after = mergeText(session.lines.join("\n"));
  assert.deepEqual(instructionsOf(after.schedule), before.schedule);
  assert.match(after.fault, /^client a, event \d+ \(log, line \d+\): edit \[.*\] \(UTF-16 units\) cuts /);
  assert.match(bare(after.fault), new RegExp(`^client a, event ${number}: edit \\[.*\\] cuts the surrogate pair at unit ${place - 1} in two; a schedule cannot say that, and ends before it$`));
});

/* A session's events, changed; what the merge answers or throws. */
function mergeChanged(change, options) {
  const events = eventsOf(liveSession({ seed: 4, clients: 2, edits: 12, ...options }).log);
  try {
    return bare(merge(change(events) || events).fault);
  } catch (fault) {
    return bare(fault.message);
  }
}
const find = (events, who, n) => events.find((event) => event.who === who && event.n === n);
const without = (who, n) => (events) => events.filter((event) => event.who !== who || event.n !== n);

test("a log that is cut or mixed up is named", () => {
  const rows = [
    [without("client a", 3), /^the log of client a has no event 3: log, line \d+ is event 4$/],
    [without("server", 0), /^the log of server has no event 0: log, line \d+ is event 1$/],
    [(events) => events.filter((event) => event.who !== "server"), "no log is a server's"],
    [(events) => events.filter((event) => event.who === "server"), "no log is a client's"],
    [(events) => [...events, { ...find(events, "server", 0), who: "other" }], "server, event 0 and other, event 0: one session has one server"],
    [(events) => [...events, find(events, "client a", 2)], /^client a, event 2 is log, line (\d+) and log, line \1: is the line there twice\?$/],
    [(events) => [...events, { ...find(events, "client a", 2), time: -1 }], /^client a, event 2 is log, line \d+ and log, line \d+: have two participants one name\?$/],
    [(events) => void (find(events, "client a", 0).revision = -1), "client a, event 0 is at revision -1, before the server's log begins (0)"],
    [(events) => void (find(events, "client a", 0).outstanding = [3]), "client a, event 0: an operation is outstanding already"],
    [(events) => void (find(events, "client b", 0).revision = 99), /client b, event 0: joins at revision 99, which the server did not reach/],
    [(events) => void Object.assign(find(events, "server", 2), { do: "edit", edit: [] }), "server, event 2: edit is no event of a server"],
  ];
  for (const [change, message] of rows) {
    const answer = mergeChanged(change);
    if (message instanceof RegExp) assert.match(answer, message);
    else assert.equal(answer, message);
  }
});

test("a server's log that ends too early is named at the first event that waits", () => {
  const events = eventsOf(liveSession({ seed: 4, clients: 2, edits: 12 }).log);
  const last = Math.max(...events.filter((event) => event.who === "server").map((event) => event.n));
  const { fault } = merge(events.filter((event) => event.who !== "server" || event.n < last));
  const waiting = new RegExp(`client [ab], event \\d+: (deliver|ack) of operation ${last - 1}, which the server did not take`, "g");
  assert.equal(bare(fault).match(waiting).length, 2, fault);
});

test("a message from elsewhere is named", () => {
  const foreign = (events) => void (find(events, "server", 1).given.operation = [4, "?"]);
  assert.match(mergeChanged(foreign), /^server, event 1: take of \[4,"\?"\] at revision 0; client [ab], event \d+ acknowledges it, and had sent \[.*\] at revision 0$/);
  const unknown = (events) => [...events.filter((event) => event.do !== "ack" && event.n < 2 && event.do !== "edit"), find(events, "server", 1)].filter((event, i, all) => all.indexOf(event) === i);
  assert.match(mergeChanged(unknown), /^server, event 1: take of \[.*\] at revision 0, which no client of these logs sent: is a client's log missing, or cut\?$/);
  const changed = (events) => void (events.find((event) => event.do === "deliver").operation = [1]);
  assert.match(mergeChanged(changed), /^client [ab], event \d+: deliver of \[1\], and the server's operation \d+ is \[.*\]$/);
});

/* What the schedule's last event is, and the message of its line. */
function lastOf({ schedule, lines }) {
  const line = JSON.parse(lines.at(-2));
  assert.equal(instructionsOf(schedule).at(-1), `${line.do} ${line.client}`);
  return [line.do, line.message];
}

test("a message that was changed on its way ends the schedule, and its line has it as it came", () => {
  const changed = { ...take, given: { revision: 0, operation: ["b"] }, appended: ["b"], document: "b" };
  const ofServer = merge([...openings, changed, { who: "ann", ...edit }, acknowledged[5]]);
  assert.deepEqual(lastOf(ofServer), ["take", { revision: 0, operation: ["b"] }]);
  const events = eventsOf(liveSession({ seed: 4, clients: 2, edits: 12 }).log);
  const delivered = events.find((event) => event.do === "deliver");
  delivered.operation = ["?", ...delivered.operation];
  const ofClient = merge(events);
  assert.equal(lastOf(ofClient)[0], "deliver");
  assert.equal(lastOf(ofClient)[1][0], "?");
  assert.equal(firstDifference(ofServer), "take message");
  assert.equal(firstDifference(ofClient), "deliver message");
});

test("two acknowledgements of one operation are named", () => {
  const both = (events) => {
    const deliver = events.find((event) => event.do === "deliver");
    deliver.do = "ack";
  };
  assert.match(mergeChanged(both), /^client [ab], event \d+ and client [ab], event \d+: both take operation \d+ as an acknowledgement$/);
});

test("where a client's log is left out, the take of its first message is named alone", () => {
  const missing = /^server, event \d+: take of \[.*\] at revision \d+, which no client of these logs sent: is a client's log missing, or cut\?$/;
  for (const who of ["client a", "client b"]) assert.match(mergeChanged((events) => events.filter((event) => event.who !== who)), missing);
});

/* The server takes "a" from ann or ben; each of them has just opened. */
const message = { revision: 0, operation: ["a"] };
const opening = { time: 0, n: 0, do: "open", revision: 0, document: "" };
const take = { who: "server", n: 1, time: 2, do: "take", given: message, revision: 1, appended: ["a"], document: "a" };
const waits = { revision: 0, state: "awaiting-confirm", outstanding: ["a"], buffer: null, document: "a" };
const edit = { n: 1, time: 1, do: "edit", edit: ["a"], ...waits, sent: message };
const openings = [
  { who: "server", ...opening, role: "server" },
  { who: "ann", ...opening, role: "client" },
  { who: "ben", ...opening, role: "client" },
];

test("whose message was taken is noted where the logs do not say it", () => {
  const { schedule, notes, fault } = merge([...openings, take, { who: "ann", ...edit }, { who: "ben", ...edit }]);
  assert.deepEqual(schedule.slice(3), ['edit 0 ["a"]', 'edit 1 ["a"]', "take 0"]);
  assert.deepEqual(notes, ['server, event 1: ann and ben both sent ["a"] at revision 0; taken as ann\'s']);
  assert.equal(fault, null);
});

test("who is handed an operation did not make it", () => {
  const delivered = { who: "ann", n: 2, time: 3, do: "deliver", operation: ["a"], ...waits, revision: 1, outstanding: ["a", 1], applied: [1, "a"], document: "aa" };
  const { schedule, notes } = merge([...openings, take, { who: "ann", ...edit }, { who: "ben", ...edit }, delivered]);
  assert.deepEqual(schedule.slice(3), ['edit 0 ["a"]', 'edit 1 ["a"]', "take 1", "deliver 0"]);
  assert.deepEqual(notes, []);
});

test("who throws at an acknowledgement did not make the operation", () => {
  const thrown = { who: "ann", n: 1, time: 9, do: "ack", stopped: "Error: There is no pending operation." };
  const acknowledged = { who: "ben", n: 2, time: 3, do: "ack", revision: 1, state: "synchronized", outstanding: null, buffer: null, document: "a" };
  const { schedule, fault } = merge([...openings, take, { who: "ben", ...edit }, acknowledged, thrown]);
  assert.deepEqual(instructionsOf(schedule).slice(3), ['edit 1 ["a"]', "take 1", "ack 1", "ack 0"]);
  assert.equal(fault, "ann, event 1: ack stopped: Error: There is no pending operation.");
});

/* ann makes the operation and has it acknowledged, so all is quiet. */
const quiet = { revision: 1, state: "synchronized", outstanding: null, buffer: null, document: "a" };
const acknowledged = [...openings, take, { who: "ann", ...edit }, { who: "ann", n: 2, time: 3, do: "ack", ...quiet }];

test("what was thrown over an operation that the server did not take ends the schedule, and is named", () => {
  const again = { who: "ann", n: 3, time: 4, do: "ack", stopped: "Error: There is no pending operation." };
  const { schedule, lines, fault } = merge([...acknowledged, again, { who: "ann", n: 4, time: 5, do: "edit", edit: [1], ...quiet }]);
  assert.deepEqual(instructionsOf(schedule).slice(3), ['edit 0 ["a"]', "take 0", "ack 0", "ack 0"]);
  assert.equal(lines.at(-2), '{"at":3,"do":"ack","client":0,"stopped":"Error: There is no pending operation."}');
  assert.equal(fault, "ann, event 3: ack of operation 1, which the server did not take, and it stopped: Error: There is no pending operation.");
});

test("of those that wait for what the server took, only who threw over it is named, and ends no schedule", () => {
  const taken = { who: "server", n: 2, time: 4, do: "take", given: { revision: 1, operation: [1, "b"] }, revision: 2, appended: [1, "b"], document: "ab" };
  const waiting = { n: 3, time: 5, do: "deliver", operation: [1, "b"] };
  const unsent = 'server, event 2: take of [1,"b"] (UTF-16 units) at revision 1, which no client of these logs sent: is a client\'s log missing, or cut?';
  const handed = merge([...acknowledged, taken, { who: "ann", ...waiting, ...quiet, revision: 2, applied: [1, "b"], document: "ab" }]);
  assert.equal(handed.fault, unsent);
  const threw = merge([...acknowledged, taken, { who: "ann", ...waiting, stopped: "Error: no" }]);
  assert.deepEqual([instructionsOf(threw.schedule), threw.fault], [instructionsOf(handed.schedule), `${unsent}; ann, event 3: deliver of operation 1, and it stopped: Error: no`]);
});

test("a message that came twice, and an acknowledgement without a message, are named", () => {
  const twice = merge([...acknowledged, { ...take, n: 2, revision: 2, appended: [1, "a"], document: "aa" }]).fault;
  assert.equal(twice, 'server, event 2: take of ["a"] at revision 0, which ann, event 1 sent, and which is not under way: did it come twice?');
  const idle = merge([...openings, take, { who: "ann", n: 1, time: 3, do: "ack", ...quiet }, { who: "ben", ...edit }]).fault;
  assert.equal(idle, 'server, event 1: take of ["a"] at revision 0; ann, event 1 acknowledges it, and had nothing under way');
});

test("what was thrown is named beside what else is wrong with its event", () => {
  const taken = { who: "server", n: 2, time: 4, do: "take", given: { revision: 0, operation: ["?"] }, stopped: "Error: no" };
  const unsent = merge([...acknowledged, taken]).fault;
  assert.equal(unsent, 'server, event 2: take of ["?"] at revision 0, which no client of these logs sent, and it stopped: Error: no: is a client\'s log missing, or cut?');
  const delivered = { who: "ben", n: 1, time: 3, do: "deliver", operation: ["b"], stopped: "Error: no" };
  const changed = merge([...acknowledged, delivered]).fault;
  assert.equal(changed, 'ben, event 1: deliver of ["b"], and the server\'s operation 0 is ["a"], and it stopped: Error: no');
});

test("a take that threw appended nothing: who acknowledges the next one did not make it", () => {
  const other = { revision: 0, operation: ["b"] };
  const thrown = { who: "server", n: 1, time: 2, do: "take", given: other, stopped: "Error: no" };
  const ben = { who: "ben", ...edit, edit: ["b"], outstanding: ["b"], document: "b", sent: other };
  const [server, ...clients] = acknowledged.filter((event) => event.who !== "ben" && event.do !== "take");
  const { schedule, fault } = merge([server, ...clients, openings[2], ben, thrown, { ...take, n: 2 }]);
  assert.deepEqual(instructionsOf(schedule).slice(3), ['edit 0 ["a"]', 'edit 1 ["b"]', "take 1"]);
  assert.equal(fault, "server, event 1: take stopped: Error: no");
});

test("what a method threw ends the schedule, and is named", () => {
  const { log } = liveSession({ seed: 1, plant: bugs["whole-log"] });
  const { fault, lines } = mergeText(log);
  assert.match(fault, /^server, event \d+ \(log, line \d+\): take stopped: Error: Both operations have to have the same base length$/);
  assert.match(lines.at(-2), /^{"at":\d+,"do":"take","client":\d,"stopped":"Error: Both operations/);
});

test("lines that are no events are named", () => {
  const rows = [
    ["{", "log, line 1 is no JSON: is the log cut?"],
    ["\n[]", "log, line 2 is no event"],
    ["null", "log, line 1 is no event"],
    ['{"n":3,"do":"ack"}', 'log, line 1: "who" is missing'],
    ['{"who":"ann","n":"3","do":"ack"}', 'log, line 1: "n" is "3"; wanted a whole number'],
    ['{"who":"ann","n":3,"revision":0}', 'log, line 1: "do" is missing'],
    ['{"who":"ann","n":3,"do":"edit","revision":0,"document":""}', 'log, line 1: "edit" is missing'],
    ['\n{"who":"ann","n":3,"do":"ack","revision":0}', 'log, line 2: "document" is missing'],
    ['{"who":"ann","n":3,"do":"ack","revison":0,"document":""}', 'log, line 1: "revision" is missing; "revison" is there'],
    ['{"who":"ann","n":3,"do":"edit","edit":[1.5],"revision":0,"document":""}', 'log, line 1: "edit" is [1.5]; wanted an array of whole numbers and strings'],
    ['{"who":"ann","n":3,"do":"ack","revision":0,"document":"","outstandin":[1]}', 'log, line 1: "outstandin" is no key; nearest: "outstanding"'],
    ['{"who":"s","n":3,"do":"take","revision":0,"document":"","given":{"revision":0,"operation":[1]}}', 'log, line 1: "appended" is missing'],
    ['{"who":"s","n":3,"do":"take","given":{"revision":0,"opration":[1]},"stopped":"x"}', 'log, line 1: "given.operation" is missing; "given.opration" is there'],
    ['{"who":"s","n":3,"do":"take","given":[],"stopped":"x"}', 'log, line 1: "given" is []; wanted an object with revision and operation'],
    ['{"who":"ann","n":0,"do":"open","role":"editor","revision":0,"document":""}', 'log, line 1: "role" is "editor"; wanted "client" or "server"'],
    ['{"who":"ann","n":3,"do":"edti","revision":0,"document":""}', 'log, line 1: "do" is "edti"; wanted one of open, edit, deliver, ack, take; nearest: "edit"'],
    ['{"who":"ann","n":3,"do":"toString","revision":0,"document":""}', 'log, line 1: "do" is "toString"; wanted one of open, edit, deliver, ack, take'],
    ['{"who":"ann","n":3,"do":"ack","revision":0,"document":"","color":"red"}', null],
    ["\ufeff{}", "log, line 1 begins with a byte order mark: write the log without it"],
    ["\n\ufeff", "log, line 2 begins with a byte order mark: write the log without it"],
  ];
  for (const [text, message] of rows) {
    if (message === null) assert.equal(readEvents(text, "log").length, 1);
    else assert.throws(() => readEvents(text, "log"), { message });
  }
});

test("the same log twice, and two participants of one name, are told apart", () => {
  const read = (events, file) => readEvents(events.map((event) => JSON.stringify(event)).join("\n"), file);
  const [server, ann] = [acknowledged.filter(({ who }) => who === "server"), acknowledged.filter(({ who }) => who === "ann")];
  const other = ann.map((event) => ({ ...event, time: event.time + 1 }));
  const said = (...logs) => {
    try {
      return merge(logs.flat()).fault;
    } catch (fault) {
      return fault.message;
    }
  };
  const [first, second, third] = [read(server, "s.log"), read(ann, "a.log"), read(ann, "copy.log")];
  assert.equal(said(first, second), null);
  assert.equal(said(first, second, third), "copy.log has the events of ann that a.log has: leave it out");
  assert.equal(said(first, second, read(ann.slice(0, 2), "half.log")), "half.log has the events of ann that a.log has: leave it out");
  assert.equal(said(first, second, read(other, "b.log")), "ann, event 0 is a.log, line 1 and b.log, line 1: have two participants one name?");
  assert.equal(said(first, read([...ann, ann[1]], "a.log")), "ann, event 1 is a.log, line 2 and a.log, line 4: is the line there twice?");
});

test("an operation that does not fit is told with its unit", () => {
  const misfit = { who: "ann", n: 3, time: 5, do: "edit", edit: [1, "b"], ...waits, revision: 1, outstanding: [5, "b"], document: "ab", sent: { revision: 1, operation: [1, "b"] } };
  const { notes, lines } = merge([...acknowledged, misfit]);
  assert.deepEqual(notes, ['ann, event 3: outstanding [5,"b"] (UTF-16 units) has base length 5 over a document of 1 units; the line has the same, in units']);
  assert.deepEqual(JSON.parse(lines.at(-1)).outstanding, [5, "b"]);
});

test("bytes that are no UTF-8 are named by their line", () => {
  const bytes = (...parts) => Buffer.concat(parts.map((part) => Buffer.from(part)));
  assert.equal(decode(bytes("é😀\n\ufeff\ufffd"), "log"), "é😀\n\ufeff\ufffd");
  const rows = [
    [bytes([0xff, 0xfe], "{\0"), 1],
    [bytes("é\r\n\n{", [0xe9], "}\n", [0xff]), 3],
    [bytes("a\n", [0xf0, 0x9f], "\n"), 2],
    [bytes("a\n", [0xf0, 0x9f]), 2],
    [bytes("a\nb\n", [0xed, 0xa0, 0xbd]), 3],
  ];
  for (const [text, line] of rows) assert.throws(() => decode(text, "log"), { message: `log, line ${line} is no UTF-8` });
});

const command = fileURLToPath(new URL("../../command/cli.mjs", import.meta.url));
const call = (...words) => spawnSync("node", [command, "merge", ...words], { encoding: "utf8" });

test("the command line", () => {
  const folder = fs.mkdtempSync(path.join(os.tmpdir(), "otbench-merge-"));
  const file = path.join(folder, "session.log");
  const { log } = liveSession({ seed: 1, cut: true });
  fs.writeFileSync(file, log);
  const { schedule, lines } = mergeText(log);
  assert.equal(call(file).stdout, [...schedule, "%%", ...lines].join("\n") + "\n");
  assert.equal(call("--schedule", file).stdout, schedule.join("\n") + "\n");
  assert.deepEqual([call(file).status, call(file).stderr], [0, ""]);
  fs.writeFileSync(file, log.split("\n").slice(1).join("\n"));
  assert.deepEqual([call(file).status, call(file).stdout], [1, ""]);
  assert.match(call(file).stderr, /^merge: the log of .* has no event 0: .*session\.log, line 1 is event 1\n$/);
  assert.equal(call(file, file).stderr, `merge: ${file} is named twice\n`);
  fs.writeFileSync(file, log.split("\n").find((line) => JSON.parse(line).role === "server"));
  assert.deepEqual([call("--schedule", file).status, call(file).stdout, call(file).stderr], [1, "", "merge: no log is a client's\n"]);
  fs.writeFileSync(file, Buffer.concat([Buffer.from(`${log}\n`), Buffer.from([0xe9, 0x0a])]));
  assert.deepEqual([call(file).status, call(file).stdout], [1, ""]);
  assert.match(call(file).stderr, /^merge: .*session\.log, line \d+ is no UTF-8\n$/);
  fs.rmSync(folder, { recursive: true });
});

test("a log whose last line is half is merged up to there", () => {
  const folder = fs.mkdtempSync(path.join(os.tmpdir(), "otbench-merge-"));
  const file = path.join(folder, "session.log");
  const { log } = liveSession({ seed: 1 });
  const { schedule } = mergeText(log);
  const count = log.trimEnd().split("\n").length;
  for (const half of [Buffer.from('{"who":"ann","n":'), Buffer.from([0x7b, 0x22, 0xf0, 0x9f])]) {
    fs.writeFileSync(file, Buffer.concat([Buffer.from(`${log.trimEnd()}\n`), half]));
    const said = `${file}, line ${count + 1} is half: the log is cut there`;
    const { status, stdout, stderr } = call("--schedule", file);
    assert.deepEqual([status, stderr], [1, `merge: ${said}\n`]);
    assert.equal(stdout, [...schedule, `; cut: ${JSON.stringify(said)}`, ""].join("\n"));
  }
  fs.writeFileSync(file, log.trimEnd().slice(0, -9));
  const cut = call(file);
  assert.match(cut.stderr, new RegExp(`; ${file}, line ${count} is half: the log is cut there\n$|^merge: ${file}, line ${count} is half: `));
  assert.deepEqual(JSON.parse(cut.stdout.trimEnd().split("\n").at(-1)), { cut: cut.stderr.slice("merge: ".length).trimEnd() });
  fs.writeFileSync(file, log.trimEnd()); // the last line is whole
  assert.deepEqual([call(file).status, call(file).stderr], [0, ""]);
  fs.writeFileSync(file, "{");
  assert.equal(call(file).stderr, `merge: ${file}, line 1 is no JSON: is the log cut?\n`);
  fs.rmSync(folder, { recursive: true });
});

test("a log that is not there, or is a folder, is named", () => {
  assert.deepEqual([call("/").status, call("/").stderr], [1, "merge: /: is a folder\n"]);
  assert.deepEqual([call("none.log").status, call("none.log").stderr], [1, "merge: none.log: there is no such file\n"]);
});

test("words that are not understood, and help, are answered by the usage", () => {
  for (const words of [[], ["--schedule"]]) {
    const { status, stdout, stderr } = call(...words);
    assert.deepEqual([status, stdout], [2, ""], words.join(" "));
    assert.match(stderr, /^merge: a log is missing\nusage: otbench merge \[--schedule\] LOG \.\.\n/);
  }
  for (const words of [["--help"], ["-h", "x.log"]]) {
    const { status, stdout, stderr } = call(...words);
    assert.deepEqual([status, stderr], [0, ""], words.join(" "));
    assert.match(stdout, /^usage: otbench merge /);
  }
  const { status, stderr } = call("--shedule", "session.log");
  assert.equal(status, 2);
  assert.match(stderr, /^merge: Unknown option '--shedule'\nusage: /);
});

test("an output that cannot be written is named in a line", { skip: !fs.existsSync("/dev/full") }, () => {
  const folder = fs.mkdtempSync(path.join(os.tmpdir(), "otbench-merge-"));
  const file = path.join(folder, "session.log");
  fs.writeFileSync(file, liveSession({ seed: 1 }).log);
  const full = fs.openSync("/dev/full", "w");
  const { status, stderr } = spawnSync("node", [command, "merge", file], { stdio: ["ignore", full, "pipe"], encoding: "utf8" });
  assert.equal(status, 1);
  assert.equal(stderr, "otbench: WriteFault\n");
  fs.closeSync(full);
  fs.rmSync(folder, { recursive: true });
});
