// A port's lines beside those of `steps`.

import assert from "node:assert/strict";
import { test } from "node:test";
import { bugs } from "../../examples/port/bugs.js";
import { wordsOf } from "../../common/conformance.mjs";
import { SERVER, fold } from "../../common/fold.mjs";
import { splitInput, unescapeLine } from "../../common/input.mjs";
import { Port } from "../../common/printed.mjs";
import { answerData } from "../src/words.mjs";
import { example, linesOf, portLinesOf } from "./sessions.mjs";

const session = fold(linesOf(example("weak-order")));
const beside = (lines, answer = null) => new Port(session, lines, answer && { answer, words: [] });
const ofBug = (name) => portLinesOf(example("weak-order"), bugs[name]);

test("the line of conform's words that tells of the cut is left out: the page tells of it", () => {
  const words = 'conforms\ncompared at 1\nunknown x in line 4\nthe schedule ends before its logs: "ann, event 9"\n';
  assert.deepEqual(wordsOf({ cut: '"ann, event 9"' }, words), ["conforms", "compared at 1", "unknown x in line 4"]);
  assert.deepEqual(wordsOf({}, "conforms\ncompared at 1\n"), ["conforms", "compared at 1"]);
});

test("a port that is ot.js differs nowhere", () => {
  const lines = portLinesOf(example("weak-order"));
  assert.equal(beside(lines).first, null);
  assert.equal(beside(lines.slice(1, -1)).first, null, "without opening and end");
});

test("lines for some instructions stand at their places", () => {
  const lines = ['{"at":7,"buffer":["a",-1,1]}', "trace", '{"at":12,"document":"acz"}', '{"at":99}', '{"at":16,"end":"quiet"}', '{"at":-1}', '{"at":"7"}'];
  const port = new Port(session, lines, null, true);
  assert.equal(port.first, 7);
  assert.deepEqual(port.differencesAt(7), [{ key: "buffer", found: '["a",-1,1]', ours: '["a",1,-1,1]' }]);
  for (const place of [0, 1, 6, 12, 16, 17]) assert.deepEqual(port.differencesAt(place), []);
  assert.equal(new Port(session, lines.slice(1), { answer: { verdict: "conforms" }, words: [] }, true).first, null);
});

test("the first difference, and what differs there", () => {
  const port = beside(ofBug("tie"));
  assert.equal(port.first, 7);
  assert.deepEqual(port.differencesAt(7), [
    { key: "buffer", found: '[1,"a",-1,1]', ours: '["a",1,-1,1]' },
    { key: "applied", found: '["c",2]', ours: '[1,"c",1]' },
    { key: "document", found: '"caz"', ours: '"acz"' },
  ]);
  assert.deepEqual(port.differencesAt(6), []);
});

test("what a client's port printed last stays beside it", () => {
  const port = beside(ofBug("tie"));
  assert.deepEqual(port.differencesOf(0, 12), [
    { key: "outstanding", found: '[1,"a",-1,1]', ours: '["a",1,-1,1]' },
    { key: "sent", found: '{"revision":2,"operation":[1,"a",-1,1]}', ours: '{"revision":2,"operation":["a",1,-1,1]}' },
    { key: "document", found: '"caz"', ours: '"acz"' },
  ]);
  assert.deepEqual(port.differencesOf(SERVER, 8), []);
  assert.deepEqual(port.differencesOf(1, 0), []);
});

test("a message that was changed on its way", () => {
  const taken = { at: 6, message: { revision: 0, operation: [1, "y"] }, appended: [2, "y"] };
  const delivered = { at: 7, message: ["d", 1], applied: null };
  const others = [1, 2, 3, 4, 5].map((at) => ({ at, message: at === 5 ? { revision: 0, operation: ["c", 1] } : null }));
  const port = beside([...others, taken, delivered].map((line) => JSON.stringify(line)));
  assert.equal(port.first, 6);
  assert.deepEqual(port.differencesAt(6)[0], { key: "message", found: '{"revision":0,"operation":[1,"y"]}', ours: '{"revision":0,"operation":[1,"z"]}' });
  assert.deepEqual(port.differencesAt(7)[0], { key: "message", found: '["d",1]', ours: '["c",1]' });
});

test("a message that a port stopped over", () => {
  const lines = linesOf(example("weak-order")).slice(0, 6);
  const port = beside([...lines, '{"at":5,"message":{"revision":0,"operation":[2,"z"]},"stopped":"no more"}']);
  assert.deepEqual(port.differencesAt(6), [
    { key: "message", found: '{"revision":0,"operation":[2,"z"]}', ours: '{"revision":0,"operation":[1,"z"]}' },
    { key: "stopped", found: '"no more"', ours: "performed" },
  ]);
});

test("keys that are not printed are not compared, and null says that there is none", () => {
  assert.equal(beside(['{"at":1,"document":"xz"}', '{"at":2,"buffer":[1,"a",1]}']).first, 3);
  assert.deepEqual(beside(['{"at":1,"buffer":null,"document":"xz"}', '{"at":2,"buffer":null}']).differencesAt(2), [
    { key: "buffer", found: "none", ours: '[1,"a",1]' },
  ]);
});

test("a port that stops, dies or ends", () => {
  const lines = linesOf(example("weak-order"));
  const rows = [
    [["{}"], { key: "line", found: '"{}"', ours: "a line of JSON" }],
    [["TypeError: x is undefined"], { key: "line", found: '"TypeError: x is undefined"', ours: "a line of JSON" }],
    [['{"at":4,"stopped":"no more"}'], { key: "stopped", found: '"no more"', ours: "performed" }],
    [[], { key: "line", found: "nothing", ours: "a line" }],
  ];
  for (const [tail, difference] of rows) {
    const port = beside([...lines.slice(0, 5), ...tail]);
    assert.equal(port.first, 5);
    assert.deepEqual(port.differencesAt(5), [difference]);
    assert.deepEqual(port.differencesAt(6), tail.length ? [{ key: "line", found: "nothing", ours: "a line" }] : []);
  }
});

test("what conform answered decides", () => {
  assert.equal(beside(ofBug("tie"), { verdict: "differs", at: 9 }).first, 9);
  assert.equal(beside(ofBug("tie"), { verdict: "conforms" }).first, null);
});

test("what conform answered, as data of the page", () => {
  const dataOf = (answer) => answerData({ port: [], beside: answer && { answer } });
  assert.deepEqual(answerData({ port: null, beside: null }), { verdict: "none" });
  assert.deepEqual(dataOf(null), { verdict: "awaited" });
  assert.deepEqual(answerData({ port: [], beside: beside([]) }), { verdict: "unanswered" });
  for (const verdict of ["conforms", "nothing compared", "stopped"]) assert.deepEqual(dataOf({ verdict, at: 3 }), { verdict });
  const differs = { verdict: "differs", at: 7, key: "document" };
  assert.deepEqual(dataOf({ ...differs, client: 0, found: "x" }), { ...differs, client: 0 });
  assert.deepEqual(dataOf({ ...differs, client: null }), { ...differs, client: "server" });
  assert.deepEqual(dataOf({ ...differs, key: "line" }), { ...differs, key: "line", client: undefined });
});

test("of a line no more is dropped than `conform` drops: one CR at its end, blanks, and no byte order mark", () => {
  const first = '{"at":1,"document":"xz"}';
  const { port } = splitInput(`a\n%%\n\ufeff${first}\n\u00a0%%\r\n\f\n \t ${first}\t \r\n \r\r\n`);
  assert.deepEqual(port, [`\ufeff${first}`, "\u00a0%%", "\f", first, "\r"]);
  assert.deepEqual(beside(port).differencesAt(1), [{ key: "line", found: JSON.stringify(port[0]), ours: "a line of JSON" }]);
});

test("the parts of an input", () => {
  assert.deepEqual(splitInput("a\r\n\n b \n"), { steps: ["a", "b"], port: null, answer: [] });
  assert.deepEqual(splitInput("a\n%%\nb\n"), { steps: ["a"], port: ["b"], answer: [] });
  assert.deepEqual(splitInput("a\n %%\t\nb\n%%\nc\nd"), { steps: ["a"], port: ["b"], answer: ["c", "d"] });
  assert.deepEqual(splitInput("\ufeffa\n%%\nb\n"), { steps: ["a"], port: ["b"], answer: [] });
  assert.equal(unescapeLine(String.raw`found "\u003cb>\\u003c\n"`), String.raw`found "<b>\\u003c\n"`);
});
