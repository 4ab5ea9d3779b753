// Why an instruction led where it did: methods and transforms by hand, and ties by ot.js' own transform and the program's note.

import assert from "node:assert/strict";
import test from "node:test";
import { chance } from "../../recorder/test/live_session.js";
import { Debugger } from "../debugger.mjs";
import { Recording } from "../recording.mjs";
import { transform } from "../../common/transform.mjs";
import { transformsOf } from "../../common/why.mjs";
import { operationOf, TextOperation } from "./operations.mjs";
import { ask, options } from "./program.mjs";

/* Client 1's outstanding "b" and its buffer "c" meet client 0's "a". */
const TIE = 'clients 2\nstart "s"\nedit 0 ["a",1]\nedit 1 ["b",1]\nedit 1 [1,"c",1]\ntake 0\ndeliver 1\ntake 1\nack 1\nack 0\ndeliver 0\ntake 1\nread 0\n';

const SESSIONS = 12;

const open = (schedule = TIE) => new Debugger(new Recording(ask, schedule));
const answers = (lines, session = open()) => lines.map((line) => session.perform(line).join("\n"));
const told = (number, schedule) => open(schedule).perform(`why ${number}`);

test("why names the method, its transforms and their ties", options, () => {
  assert.deepEqual(told(4), [
    "line 7, instruction 4: deliver 1",
    '  client 1 takes client 0\'s operation ["a",1], transforms it against its outstanding operation ["b",1] and its buffer [1,"c",1] and applies [2,"a",1]',
    "  AwaitingWithBuffer.applyServer",
    '    transform(outstanding ["b",1], operation ["a",1]) makes ["b",2] and [1,"a",1]',
    '      tie at 0: "b", of the first argument, goes before "a"',
    '    transform(buffer [1,"c",1], operation [1,"a",1]) makes [1,"c",2] and [2,"a",1]',
    '      tie at 1: "c", of the first argument, goes before "a"',
  ]);
  assert.deepEqual(told(5).slice(2), [
    "  Server.receiveOperation",
    '    transform(operation ["b",1], revision 1 of client 0 ["a",1]) makes ["b",2] and [1,"a",1]',
    '      tie at 0: "b", of the first argument, goes before "a"',
  ]);
});

test("why of what has no transform names the method alone", options, () => {
  const rule = (number) => told(number).at(-1);
  assert.equal(rule(0), "  Synchronized.applyClient: nothing is transformed");
  assert.equal(rule(2), "  AwaitingConfirm.applyClient: nothing is transformed");
  assert.equal(rule(3), "  Server.receiveOperation: nothing is transformed");
  assert.equal(rule(6), "  AwaitingWithBuffer.serverAck: nothing is transformed");
  assert.equal(rule(8), "  Synchronized.applyServer: nothing is transformed");
  assert.deepEqual(told(10).slice(1), ['  client 0\'s document is "bas"', "  nothing is transformed"]);
  const composed = told(2, 'clients 1\nedit 0 ["a"]\nedit 0 [1,"b"]\nedit 0 [2,"c"]\n');
  assert.equal(composed.at(-1), "  AwaitingWithBuffer.applyClient: compose(buffer, operation)");
});

test("why is of the last instruction, performed or undone; at the opening it says the opening", options, () => {
  const [opening, , last, , undone, none, more] = answers(["why", "goto 6", "why", "back", "why", "why 99", "why 1 2"]);
  assert.match(opening, /^the opening: /);
  assert.match(last, /^line 8, instruction 5: take 1\n/);
  assert.equal(undone, last);
  assert.match(none, /^99 is no instruction: they are 0 to 10; why \[N\] \[walk \[K\]\]$/);
  assert.match(more, /^2 is a word too many; why /);
  assert.deepEqual(told(0, "clients 1\n"), ["0 is no instruction: there are none; why [N] [walk [K]]"]);
});

test("of a refused instruction why says the reason", options, () => {
  assert.match(told(1, 'clients 1\nedit 0 ["a"]\ntake 0\ntake 0\n').join("\n"), /^line 3, instruction 1: take 0/);
  assert.match(told(2, 'clients 1\nedit 0 ["a"]\ntake 0\ntake 0\n').at(-1), /^ {2}refused: LinkEmpty: /);
});

test("without two texts at one place there is no tie, and names stand beside clients", options, () => {
  const apart = told(3, '; client 0 is ann\nclients 2\nstart "s"\nedit 0 ["a",1]\nedit 1 [1,"b"]\ntake 0\ntake 1\n');
  assert.deepEqual(apart.slice(2), ["  Server.receiveOperation", '    transform(operation [1,"b"], revision 1 of client 0 (ann) ["a",1]) makes [2,"b"] and ["a",2]']);
});

test("each operation of the log is named with its revision and client", options, () => {
  assert.deepEqual(told(5, 'clients 3\nstart "s"\nedit 0 ["a",1]\nedit 1 [1,"b"]\nedit 2 [1,"c"]\ntake 0\ntake 1\ntake 2\n').slice(2), [
    "  Server.receiveOperation",
    '    transform(operation [1,"c"], revision 1 of client 0 ["a",1]) makes [2,"c"] and ["a",2]',
    '    transform(operation [2,"c"], revision 2 of client 1 [2,"b"]) makes [2,"c",1] and [3,"b"]',
    '      tie at 2: "c", of the first argument, goes before "b"',
  ]);
});

test("of many transforms those with a tie are shown, and long texts are cut", options, () => {
  const edits = Array.from({ length: 12 }, (_, i) => `edit 0 [${JSON.stringify("word ".repeat(40))}${i ? `,${200 * i}` : ""}]\ntake 0\nack 0\n`);
  const said = told(37, `clients 2\nedit 1 ["y"]\n${edits.join("")}take 1\n`);
  assert.equal(said.filter((line) => line.startsWith("      tie at 0: ")).length, 8);
  assert.equal(said.at(-1), "    .. 4 more transforms, 4 of them with a tie");
  assert.ok(said.every((line) => line.length < 400), said.join("\n"));
  const ends = edits.map((edit, i) => edit.replace(/\[.*\]/, i ? `[${200 * i},"z${"z".repeat(199)}"]` : `["${"z".repeat(200)}"]`));
  const [, , method, one, tie, more] = told(37, `clients 2\nedit 1 ["y"]\n${ends.join("")}take 1\n`);
  assert.deepEqual([method, one.slice(0, 44), tie.slice(0, 21), more], ["  Server.receiveOperation", '    transform(operation ["y"], revision 1 of', '      tie at 0: "y", ', "    .. 11 more transforms, none of them with a tie"]);
});

test("transform is ot.js', and has a tie exactly if exchanged arguments make something else", () => {
  const choose = chance(11);
  let ties = 0;
  for (let i = 0; i < 20_000; i++) {
    const length = choose(7);
    const [one, other] = [operationOf(length, choose), operationOf(length, choose)];
    const [[first, second], [otherFirst]] = [TextOperation.transform(one, other), TextOperation.transform(other, one)];
    const made = transform(one.toJSON(), other.toJSON());
    assert.deepEqual([made.first, made.second], [first.toJSON(), second.toJSON()]);
    assert.equal(made.ties.length > 0, !second.equals(otherFirst));
    ties += made.ties.length;
  }
  assert.ok(ties > 1000, String(ties));
});

test("operations of documents of two lengths are refused, as by ot.js", () => {
  for (const [one, other] of [[[1], []], [[], [-1]], [[2, "a"], [1]], [["a"], ["b", 1]]]) {
    assert.throws(() => transform(one, other), /the operations are of two documents/);
    assert.throws(() => TextOperation.transform(...[one, other].map((operation) => TextOperation.fromJSON(operation))));
  }
});

/* What the program says of a value in the place of ot.js', at a place. */
function noteOf(recording, place, key, value) {
  const line = JSON.stringify({ at: place, [key]: value });
  return JSON.parse(ask(["conform", "--sparse", "--json"], `${recording.scheduleUpTo(place)}%%\n${line}\n`).output).note;
}

/* What the transforms of a call make, as `steps` has it. */
function madeBy({ rule }, transforms) {
  if (rule === "Server.receiveOperation") return { appended: transforms.at(-1).first };
  const [outstanding, buffer] = transforms.map(({ first }) => first);
  return { applied: transforms.at(-1).second, outstanding, ...(buffer && { buffer }) };
}

/* What a call would make in the end if transform's arguments were exchanged. */
function exchanged(call) {
  const [operation] = call.given.filter(({ name }) => name === "operation").map(({ value }) => JSON.parse(value));
  const values = (name) => call.given.filter((it) => it.name === name).map(({ value }) => JSON.parse(value));
  if (call.rule === "Server.receiveOperation") return values("concurrent").reduce((message, concurrent) => transform(concurrent, message).second, operation);
  return [...values("outstanding"), ...values("buffer")].reduce((delivered, pending) => transform(delivered, pending).first, operation);
}

test("over generated sessions the transforms make what the program has, and there is a tie exactly if the program says so of the other order", options, () => {
  const seen = { tied: 0, untied: 0 };
  for (let seed = 1; seed <= SESSIONS; seed++) {
    const recording = new Recording(ask, ask(["generate", "--seed", String(seed), "--clients", String(2 + (seed % 3)), "--instructions", "40"], "").output);
    for (let number = 0; number < recording.end; number++) {
      const { line } = recording.session.steps[number + 1];
      if (line.do !== "take" && line.do !== "deliver") continue;
      const call = recording.call(number);
      const transforms = transformsOf(call, recording.session.log);
      if (transforms.length === 0) continue;
      const where = `seed ${seed}, instruction ${number}`;
      const made = madeBy(call, transforms);
      for (const [key, value] of Object.entries(made)) assert.deepEqual(value, line[key], `${where}: ${key}`);
      const [key, value] = Object.entries(made)[0];
      const other = exchanged(call);
      const isTied = transforms.some(({ ties }) => ties.length > 0);
      if (!isTied) assert.deepEqual(other, value, where);
      else if (JSON.stringify(other) !== JSON.stringify(value)) assert.equal(noteOf(recording, number + 1, key, other), "that is what transform gives if the text of its second argument goes first", where);
      seen[isTied ? "tied" : "untied"]++;
    }
  }
  assert.ok(seen.tied > SESSIONS / 4 && seen.untied > SESSIONS / 4, JSON.stringify(seen));
});
