// The lines of a schedule's text, and its change by instructions.

import assert from "node:assert/strict";
import { test } from "node:test";
import { lineOfPlace, outlineOf, placeOfLine, withInstructions, withName, withoutInstruction } from "../../common/outline.mjs";
import { readEvents } from "../../recorder/logs.js";
import { merge } from "../../recorder/merging.js";
import { liveSession } from "../../recorder/test/live_session.js";
import { serveProgram, skip } from "./engines.mjs";
import { example, seededSchedule } from "./sessions.mjs";

const TEXT = '; two\r\nclients 2\n\n  present 1\t\nstart "x"\n;\nedit 0 [1,"a"]\r\n\n; in between\ntake 0';

test("which line has which instruction", () => {
  const outline = outlineOf(TEXT);
  assert.deepEqual({ opening: outline.opening, lines: outline.lines }, { opening: 5, lines: [6, 9] });
  assert.deepEqual([0, 1, 2, 3].map((place) => lineOfPlace(outline, place)), [4, 6, 9, -1]);
  assert.deepEqual([0, 4, 5, 6, 7, 8, 9, 20].map((line) => placeOfLine(outline, line)), [0, 0, 0, 1, 1, 1, 2, 2]);
  assert.deepEqual(outlineOf("").lines, []);
});

test("the lines of explain are the same", { skip }, () => {
  const texts = [TEXT, ...["weak-order", "late-join", "shopping-list"].map(example), seededSchedule({ seed: 4, clients: 3, late: 1 })];
  for (const text of texts) {
    const told = new TextDecoder().decode(serveProgram(["explain"], new TextEncoder().encode(text)).output);
    const lines = [...told.matchAll(/^line (\d+), instruction (\d+): /gm)].map(([, line]) => Number(line) - 1);
    assert.deepEqual(outlineOf(text).lines.slice(0, lines.length), lines);
  }
});

test("instructions are put behind a place, what stands further down is moved up, and they are taken out", () => {
  const rows = [
    [TEXT, 1, ["take 1"], TEXT.replace('"a"]\r\n', '"a"]\r\ntake 1\n') + "\n"],
    [TEXT, 0, ["read 0", "read 1"], TEXT.replace('"x"\n', '"x"\nread 0\nread 1\n') + "\n"],
    ["clients 1\n", 0, ["read 0"], "clients 1\nread 0\n"],
    ["clients 1", 0, ["read 0"], "clients 1\nread 0\n"],
  ];
  for (const [text, place, instructions, expected] of rows) assert.equal(withInstructions(text, outlineOf(text), place, instructions), expected);
  const later = "clients 2\nedit 0 [\"a\"]\n; then\n take \t0\nack 0\nread 1\ndeliver 1\n";
  const moves = [
    [1, ["take 0"], "clients 2\nedit 0 [\"a\"]\ntake 0\n; then\nack 0\nread 1\ndeliver 1\n"],
    [2, ["deliver 1"], "clients 2\nedit 0 [\"a\"]\n; then\n take \t0\ndeliver 1\nack 0\nread 1\n"],
    [2, ["ack 0", "deliver 1", "take 0"], "clients 2\nedit 0 [\"a\"]\n; then\n take \t0\nack 0\ndeliver 1\ntake 0\nread 1\n"],
    [2, ["read 1", "ack 1"], "clients 2\nedit 0 [\"a\"]\n; then\n take \t0\nread 1\nack 1\nack 0\nread 1\ndeliver 1\n"],
    [5, ["read 0"], later.replace("deliver 1", "deliver 1\nread 0")],
  ];
  for (const [place, instructions, expected] of moves) assert.equal(withInstructions(later, outlineOf(later), place, instructions), expected);
  assert.equal(withoutInstruction(TEXT, 1), TEXT.replace('edit 0 [1,"a"]\r\n', ""));
  assert.equal(withoutInstruction("clients 1\nread 0\n", 1), "clients 1\n");
});

test("names and the cut are those that the recorder writes", () => {
  const called = { "client a": '"quoted"', "client b": "a\u0007b" };
  const events = liveSession({ seed: 2 }).log.trim().split("\n").map((line) => JSON.parse(line));
  const front = events.filter(({ role, do: what, n }) => role === "server" || what !== "take" || n < 4); // the server's log is cut
  const log = front.map((event) => JSON.stringify({ ...event, who: called[event.who] ?? event.who })).join("\n");
  const { schedule, fault } = merge(readEvents(log, "log"));
  const { names, cut } = outlineOf(schedule.join("\n"));
  assert.match(fault, /which the server did not take/);
  assert.equal(cut, fault);
  assert.deepEqual([...names.values()].toSorted(), ['"quoted"', "a\u0007b", "client c"]);
  assert.equal(outlineOf('; cut: "half\n; cut: 7\n').cut, '"half');
  assert.equal(outlineOf("clients 1\n").cut, null);
});

test("names of clients stand in comments", () => {
  const text = withName(withName("clients 2\n", 1, "Ben"), 0, " Ann\n; x ");
  assert.equal(text, '; client 0 is "Ann\\n; x"\n; client 1 is Ben\nclients 2\n');
  assert.deepEqual([...outlineOf(text).names], [[0, "Ann\n; x"], [1, "Ben"]]);
  assert.equal(withName(text, 1, ""), '; client 0 is "Ann\\n; x"\nclients 2\n');
  assert.equal(withName(text, 1, "Bea"), '; client 1 is Bea\n; client 0 is "Ann\\n; x"\nclients 2\n');
  for (const name of ['"', '"a', "\u0000", "a\tb", "\u202eb", "a\u2028b", "é 🙂"]) assert.equal(outlineOf(withName("clients 1\n", 0, name)).names.get(0), name);
});
