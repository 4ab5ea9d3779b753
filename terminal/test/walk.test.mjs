// How ot.js goes through a transform or a compose: by hand, beside ot.js' own compose, and beside the lines of `steps`.

import assert from "node:assert/strict";
import { readFileSync } from "node:fs";
import test from "node:test";
import { add } from "../../common/components.mjs";
import { compose } from "../../common/compose.mjs";
import { fold } from "../../common/fold.mjs";
import { stateAt } from "../../common/places.mjs";
import { visible } from "../../common/visible.mjs";
import { tableOf, walkLines, walksOf } from "../../common/walk.mjs";
import { chance } from "../../recorder/test/live_session.js";
import { Debugger } from "../debugger.mjs";
import { Recording } from "../recording.mjs";
import { operationOf } from "./operations.mjs";
import { ask, options } from "./program.mjs";

const WEAK = readFileSync(new URL("../../examples/weak-order.ots", import.meta.url), "utf8");
const SESSIONS = 320;

const open = (schedule = WEAK, port = null) => new Debugger(new Recording(ask, schedule, port, true));
const told = (line, schedule) => open(schedule).perform(line);

test("a transform, component by component: the first one, or that of a number", options, () => {
  assert.deepEqual(told("why 6 walk"), [
    "line 11, instruction 6: deliver 0",
    "  AwaitingWithBuffer.applyServer",
    '    1 of 2, transform(A, B): A outstanding [1,"z"], B operation ["c",1]',
    "      at  A    B    X    Y",
    '      0   -    "c"  1    "c"',
    "      0   1    1    1    1",
    '      1   "z"  -    "z"  1',
    '    makes X [2,"z"] and Y ["c",2]',
  ]);
  assert.deepEqual(told("why 6 walk 2").slice(2), [
    '    2 of 2, transform(A, B): A buffer ["a",-1,1], B operation ["c",2]',
    "      at  A    B    X    Y",
    '      0   "a"  -    "a"  1    tie: A goes first',
    '      0   -    "c"  1    "c"',
    "      0   -1   1    -1   -",
    "      1   1    1    1    1",
    '    makes X ["a",1,-1,1] and Y [1,"c",1]',
  ]);
  assert.deepEqual(told("why 1 walk", 'clients 2\nstart "xyz"\nedit 0 [1,-2]\nedit 1 [-1,"b",1,-1]\ntake 0\ntake 1\n').at(-1), "  nothing is transformed or composed");
  assert.deepEqual(told("why 3 walk", 'clients 2\nstart "xyz"\nedit 0 [1,-2]\nedit 1 [-1,"b",1,-1]\ntake 0\ntake 1\n').slice(3), [
    "      at  A    B   X    Y",
    '      0   "b"  -   "b"  1',
    "      0   -1   1   -1   -",
    "      1   1    -1  -    -1",
    "      2   -1   -1  -    -",
    '    makes X ["b",-1] and Y [1,-1]',
  ]);
});

test("a compose, with places in the document between", options, () => {
  assert.deepEqual(told("why 2 walk").slice(1), [
    "  AwaitingWithBuffer.applyClient",
    '    compose(A, B): A buffer [1,"a",1], B operation [-1,2]',
    "      at  A    B   X",
    "      0   1    -1  -1",
    '      1   "a"  1   "a"',
    "      2   1    1   1",
    '    makes X ["a",-1,1]',
  ]);
  const edits = 'clients 1\nstart "xy"\nedit 0 [2]\nedit 0 [-1,"abc",1]\nedit 0 [1,-1,"d",2]\n';
  assert.deepEqual(told("why 2 walk", edits).slice(3), [
    "      at  A    B    X",
    '      0   "a"  1    "a"',
    '      1   -    "d"  "d"',
    '      1   "b"  -1   -',
    '      2   "c"  1    "c"',
    "      3   -1   -    -1",
    "      3   1    1    1",
    '    makes X ["adc",-1,1]',
  ]);
  assert.deepEqual(told("why 2 walk", 'clients 1\nstart "xy"\nedit 0 [2]\nedit 0 [-1,1]\nedit 0 ["q",1]\n').slice(4, -1), ['      0   -1  -    -1', '      0   -   "q"  "q"', "      0   1   1    1"]);
  assert.deepEqual(told("why 2 walk", 'clients 1\nstart "xyzw"\nedit 0 [4]\nedit 0 [2,"ab",2]\nedit 0 [3,"c",-1,2]\n').slice(3), [
    "      at  A    B    X",
    "      0   2    2    2",
    '      2   "a"  1    "a"',
    '      3   -    "c"  "c"',
    '      3   "b"  -1   -',
    "      4   2    2    2",
    '    makes X [2,"ac",2]',
  ]);
});

test("which walk: of the last instruction, by first letters; other words are complained of", options, () => {
  const session = open();
  assert.match(session.perform("why walk").join("\n"), /^the opening: /);
  assert.deepEqual(session.perform("why walk walk"), ["walk is no number; why [N] [walk [K]]"]);
  assert.deepEqual(session.perform("why 2 walk 2"), ["2 is no transform or compose there: they are 1 to 1; why [N] [walk [K]]"]);
  session.perform("goto 7");
  assert.deepEqual(session.perform("why w 2"), told("why 6 walk 2"));
  assert.deepEqual(session.perform("why walk 3"), ["3 is no transform or compose there: they are 1 to 2; why [N] [walk [K]]"]);
  assert.deepEqual(session.perform("why walk 0"), ["a number from 1 is wanted; why [N] [walk [K]]"]);
  for (const word of ["__proto__", "constructor", "x".repeat(100_000), "\u202e"]) {
    for (const line of [`why walk ${word}`, `why ${word} walk`, `why 1 ${word} walk`, `why walk 1 ${word}`]) assert.match(session.perform(line).join("\n"), /; why \[N\] \[walk \[K\]\]$/);
  }
  assert.match(session.perform("why 15 walk").at(-1), /nothing is transformed or composed/);
  assert.deepEqual(["why ", "why 3 w", "why walk ", "why 3 walk "].map((line) => session.complete(line)[0]), [["walk"], ["walk"], ["walk"], []]);
  assert.match(session.perform("help why")[0], /^why \[N\] \[walk \[K\]\]: /);
});

test("beside a port the values that differ follow; long and hostile texts are short", options, () => {
  const session = open(WEAK, '{"at":7,"buffer":["a",-1,1]}\n');
  assert.equal(session.perform("why 6 walk 2").at(-1), '  port: buffer ["a",-1,1], ot.js ["a",1,-1,1]');
  for (const text of ["<b>", "\u202e\u2066", "__proto__", "5", "x".repeat(15_000), "\u{1f600}".repeat(15_000)]) {
    const said = told("why 3 walk", `; client 0 is ${text.slice(0, 40)}\nclients 2\nedit 0 [${JSON.stringify(text)}]\nedit 1 [${JSON.stringify(text)}]\ntake 0\ntake 1\n`);
    assert.equal(said.length, 7);
    assert.ok(said.every((line) => line.length < 700), said.map((line) => line.length).join());
    assert.match(said[4], /tie: A goes first$/);
  }
});

/* The cells of a text that is inserted alone. */
const cellsOf = (text) => tableOf({ method: "transform", named: [["one", [text]], ["other", []]] }).rows[1];

test("a text of 24 characters is whole, of a longer one 8 of each end are shown, also of characters of two units", () => {
  for (const character of ["x", "\u{1f600}"]) {
    const text = (count) => "ab".repeat(count / 2 - 1) + character + "c";
    assert.equal(cellsOf(text(24))[1], JSON.stringify(text(24)));
    assert.equal(cellsOf(`d${text(24)}`)[1], `"dabababa".."ababab${character}c" (25 characters)`);
    assert.equal(cellsOf(`d${text(24)}`)[4], "25");
  }
});

test("a text is taken in parts between characters of two units", () => {
  const { rows, made } = tableOf({ method: "compose", named: [["buffer", ["\u{1f600}b\u{1f600}", 1]], ["operation", [1, -1, 2]]] });
  assert.deepEqual(rows.slice(1), [["0", '"\u{1f600}"', "1", '"\u{1f600}"'], ["1", '"b"', "-1", "-"], ["2", '"\u{1f600}"', "1", '"\u{1f600}"'], ["3", "1", "1", "1"]]);
  assert.deepEqual(made, [["\u{1f600}\u{1f600}", 1]]);
});

test("columns stay in line where a terminal has characters by their numbers", () => {
  for (const text of ["\u202e\u2066", "\u0007", "\u2028", "\u202e".repeat(30)]) {
    const [, heads, tie, other] = walkLines([{ method: "transform", named: [["one", [text]], ["other", ["b"]]] }], 0).map(visible);
    assert.equal(heads.indexOf("B"), tie.indexOf(" - ") + 1, JSON.stringify(text));
    assert.equal(heads.indexOf("X"), other.lastIndexOf(" 1 ") + 1, JSON.stringify(text));
  }
});

const givenAs = (name, ...values) => values.map((value) => ({ name, value: JSON.stringify(value) }));

/* What a method of ot.js was given at a place, by the lines of `steps`; null where it neither transforms nor composes. */
function callAt(session, place) {
  const { line, moved, received } = session.steps[place];
  if (line.do === "take") {
    const concurrent = session.log.slice(received.revision, line.revision - 1).map(({ operation }) => operation);
    const given = [...givenAs("revision", received.revision), ...givenAs("operation", received.operation), ...givenAs("concurrent", ...concurrent)];
    return { rule: "Server.receiveOperation", given };
  }
  if (line.do !== "deliver" && line.do !== "edit") return null;
  const { outstanding, buffer } = stateAt(session, moved, place - 1);
  const buffered = buffer === null ? [] : givenAs("buffer", buffer);
  if (line.do === "edit") return buffer === null ? null : { rule: "AwaitingWithBuffer.applyClient", given: [...buffered, ...givenAs("operation", line.edit)] };
  const state = buffer !== null ? "AwaitingWithBuffer" : outstanding !== null ? "AwaitingConfirm" : "Synchronized";
  const pending = outstanding === null ? [] : givenAs("outstanding", outstanding);
  return { rule: `${state}.applyServer`, given: [...pending, ...buffered, ...givenAs("operation", received.operation)] };
}

/* The operations that a line of `steps` has, each behind the one of the tables that is to be it. */
function operationsIn(line, tables) {
  const made = tables.map((table) => table.made);
  if (line.do === "edit") return [[made[0][0], line.buffer]];
  if (line.do === "take") return [[made.at(-1)[0], line.appended]];
  return [[made.at(-1)[1], line.applied], [made[0][0], line.outstanding], ...(made.length > 1 ? [[made[1][0], line.buffer]] : [])];
}

/* The operation that the cells of a column are, put together. */
function built(column) {
  const operation = [];
  for (const component of column) if (component !== null) add(operation, component);
  return operation;
}

/* How many characters of a document the components of a column take: those that are no text. */
const passed = (column) => column.reduce((count, component) => count + (typeof component === "number" ? Math.abs(component) : 0), 0);

/* Whether the columns of a table are the operations, and its places those of the components; answers how many components above 1 it passes. */
function checkTable({ rows: [heads, ...rows], made }, { method, named }, where) {
  const columns = heads.slice(1, 3 + made.length).map((_, i) => rows.map((row) => (row[i + 1] === "-" ? null : JSON.parse(row[i + 1]))));
  const [one, other] = columns;
  assert.deepEqual(columns.map(built), [...named.map(([, operation]) => operation), ...made], where);
  // The document of the places is that of both operations of a transform, and that which the second one of a compose is of.
  rows.forEach(([place], i) => assert.equal(place, String(passed((method === "compose" ? other : one).slice(0, i))), where));
  if (method === "transform") rows.forEach((_, i) => assert.equal(passed(one.slice(0, i)), passed(other.slice(0, i)), where));
  // What A deletes or inserts alone comes before what B inserts, and is a tie in a transform.
  rows.forEach((row, i) => assert.ok(one[i] !== null || other[i + 1] !== null, where));
  if (method === "transform") rows.forEach((row, i) => assert.equal(row.at(-1) !== "", other[i] === null && one[i + 1] === null, where));
  return other.filter((component) => Math.abs(component) > 1).length;
}

test(`over ${SESSIONS} sessions made at random a walk makes what steps has, and its rows are the operations`, options, () => {
  const seen = { edit: 0, take: 0, deliver: 0 };
  const above = { compose: 0, transform: 0 };
  for (let seed = 1; seed <= SESSIONS; seed++) {
    const words = ["generate", "--seed", String(seed), "--clients", String(2 + (seed % 4)), "--instructions", String(30 + (seed % 60))];
    const session = fold(ask(["steps"], ask(words, "").output).output.split("\n").filter(Boolean));
    for (let place = 1; place <= session.length; place++) {
      const call = callAt(session, place);
      const walks = call === null ? [] : walksOf(call, session.log);
      if (walks.length === 0) continue;
      const { line } = session.steps[place];
      const where = `seed ${seed}, place ${place}`;
      const tables = walks.map(tableOf);
      for (const [made, wanted] of operationsIn(line, tables)) assert.deepEqual(made, wanted, where);
      tables.forEach((table, i) => (above[walks[i].method] += checkTable(table, walks[i], where)));
      assert.equal(walkLines(walks, walks.length - 1).length, tables.at(-1).rows.length + 2);
      seen[line.do]++;
    }
  }
  assert.ok(seen.edit > 300 && seen.take > 1000 && seen.deliver > 1000, JSON.stringify(seen));
  assert.ok(above.compose > 300 && above.transform > 1000, JSON.stringify(above));
});

test("a method was given there what conform says", options, () => {
  for (let seed = 1; seed <= 4; seed++) {
    const recording = new Recording(ask, ask(["generate", "--seed", String(seed), "--clients", "3", "--instructions", "40"], "").output);
    for (let place = 1; place <= recording.end; place += 3) {
      const call = callAt(recording.session, place);
      if (call === null) continue;
      const { rule, given } = recording.call(place - 1);
      assert.deepEqual([rule, walksOf({ rule, given }, recording.session.log)], [call.rule, walksOf(call, recording.session.log)], `seed ${seed}, place ${place}`);
    }
  }
});

test("compose is ot.js'; operations that do not follow one another are refused", () => {
  const choose = chance(5);
  for (let i = 0; i < 20_000; i++) {
    const one = operationOf(choose(7), choose);
    const other = operationOf(one.targetLength, choose);
    assert.deepEqual(compose(one.toJSON(), other.toJSON()), one.compose(other).toJSON());
  }
  for (const [one, other] of [[[1], []], [[], [-1]], [["ab"], [1]], [[-1], [1]]]) assert.throws(() => compose(one, other), /the second operation is of another document/);
});
