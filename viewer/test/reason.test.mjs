// Why the documents have their texts: what conform says of the last transform, in words.

import assert from "node:assert/strict";
import { test } from "node:test";
import { transformsOf } from "../../common/why.mjs";
import { Bench } from "../src/bench.mjs";
import { lastTransform, reasonWords } from "../src/reason.mjs";
import { reportOf } from "../src/report.mjs";
import { reasonNow } from "../src/state.mjs";
import { DirectEngine, skip } from "./engines.mjs";
import { HOSTILE } from "./hostile.mjs";
import { seededSchedule } from "./sessions.mjs";

/* Client 1's outstanding "b" and its buffer "c" meet client 0's "a". */
const TIE = '; client 0 is Ann\nclients 2\nstart "s"\nedit 0 ["a",1]\nedit 1 ["b",1]\nedit 1 [1,"c",1]\ntake 0\ndeliver 1\ntake 1\nack 1\nack 0\ndeliver 0\ntake 1\nread 0\n';

async function opened(text) {
  const bench = new Bench(
    () => {},
    async () => {},
  );
  bench.use(new DirectEngine());
  bench.dispatch({ do: "open", text });
  await bench.settled();
  return bench;
}

/* The reason of a place, in lines. */
async function saidAt(bench, place) {
  bench.dispatch({ do: "go", place });
  const { session, outline } = bench.state;
  const lines = reasonWords(session, (await bench.sayHere()).reason, outline.names);
  return lines.map((words) => words.map((part) => (typeof part === "string" ? part : JSON.stringify(part.operation))).join(""));
}

test("the last transform is told with its method, its operations and each tie", { skip }, async () => {
  const bench = await opened(TIE);
  assert.deepEqual(await saidAt(bench, 0), ["Nothing has been transformed up to here."]);
  assert.deepEqual(await saidAt(bench, 4), ["Nothing has been transformed up to here."]);
  assert.deepEqual(await saidAt(bench, 5), [
    'deliver 1, place 5: AwaitingWithBuffer.applyServer transforms ["b",1] (client 1, outstanding) against ["a",1] (client 0 (Ann), log entry 0).',
    'Both insert at the start: transform puts the text of its first argument first, "b" before "a".',
    'Then it transforms [1,"c",1] (client 1, buffer) against [1,"a",1] (client 0 (Ann), log entry 0).',
    'Both insert after 1 character: transform puts the text of its first argument first, "c" before "a".',
  ]);
  const taken = ['take 1, place 6: Server.receiveOperation transforms ["b",1] (client 1, its message) against ["a",1] (client 0 (Ann), log entry 0).', 'Both insert at the start: transform puts the text of its first argument first, "b" before "a".'];
  for (const place of [6, 7, 11]) assert.deepEqual(await saidAt(bench, place), taken);
});

test("a message that is transformed several times, and no tie", { skip }, async () => {
  const bench = await opened('clients 2\nstart "xy"\nedit 1 [1,"b",1]\nedit 0 ["a",2]\ntake 0\nack 0\nedit 0 [-1,2]\ntake 0\ntake 1\n');
  assert.deepEqual(await saidAt(bench, 7), [
    'take 1, place 7: Server.receiveOperation transforms [1,"b",1] (client 1, its message) against ["a",2] (client 0, log entry 0). They insert nothing at one position.',
    'Then it transforms [2,"b",1] (client 1, its message) against [-1,2] (client 0, log entry 1). They insert nothing at one position.',
  ]);
});

test("what is many is told in part", { skip }, async () => {
  const bench = await opened(`clients 2\nedit 1 ["b"]\n${'edit 0 ["a"]\ntake 0\nack 0\nedit 0 [-1]\ntake 0\nack 0\n'.repeat(20)}take 1\n`);
  const lines = await saidAt(bench, 122);
  assert.equal(lines.length, 8 + 4 + 1);
  assert.equal(lines.at(-1), "and 32 more");
});

test("what was transformed makes what the program has, at each place of live sessions", { skip }, async () => {
  for (const seed of [1, 2, 3]) {
    const bench = await opened(seededSchedule({ seed, clients: 3, edits: 12 }));
    const { session } = bench.state;
    for (let place = 1; place <= session.length; place++) {
      if (lastTransform(session, place) !== place) continue;
      bench.dispatch({ do: "go", place });
      const reason = (await bench.sayHere()).reason;
      const { line } = session.steps[place];
      const made = transformsOf(reason, session.log).at(-1);
      assert.deepEqual(line.do === "take" ? made.first : made.second, line.appended ?? line.applied);
      assert.equal(reasonWords(session, reason).filter(([words]) => / transforms $/.test(words)).length, Math.min(8, transformsOf(reason, session.log).length));
    }
  }
});

test("it is asked for where it is shown, and follows the place; the report has it", { skip }, async () => {
  const bench = await opened(TIE);
  const shownAt = async (place) => {
    bench.dispatch({ do: "go", place });
    for (let i = 0; i < 100 && !reasonNow(bench.state); i++) await new Promise((done) => setTimeout(done, 30));
    return reasonNow(bench.state)?.place;
  };
  bench.dispatch({ do: "reason" });
  assert.equal(await shownAt(5), 5);
  assert.equal(await shownAt(11), 6);
  const report = reportOf(bench.state, { verdicts: [], ...(await bench.sayHere()), link: "l", isOfFile: false });
  assert.match(report, /`take 1, place 6: Server\.receiveOperation transforms \["b",1\] \(client 1, its message\) against \["a",1\] \(client 0 \(Ann\), log entry 0\)\.`\\\n`Both insert at the start: .*`\n\nWhat ot\.js has at place 11:\n\n- server/);
  assert.match(report, /^\*\*otbench\*\*: \n\nAt place 11 of 11 \(.*\):\n\n`They may still differ: .* all will be "bcas"\.`\n\n```\n; client 0/);
  bench.dispatch({ do: "reason" });
  assert.equal(reasonNow(bench.state), null);
  bench.dispatch({ do: "write", text: "clients 2\nedit", line: 0, tag: "" });
  await bench.settled();
  assert.equal((await bench.sayHere()).reason, null, "the text has a fault");
});

test("hostile texts are quoted", { skip }, async () => {
  for (const value of HOSTILE.filter((text) => typeof text === "string")) {
    const text = JSON.stringify(value.toWellFormed().slice(0, 9000));
    const bench = await opened(`; client 0 is ${text}\nclients 2\nedit 0 [${text}]\nedit 1 [${text}]\ntake 0\ntake 1\n`);
    const [, tie] = await saidAt(bench, 4);
    assert.match(tie, /^Both insert at the start: transform puts the text of its first argument first, ".*" before ".*"\.$/);
    assert.ok(tie.length < 700);
    assert.doesNotMatch(tie, /[\u202e\u2066\u0007\ufffe]/);
  }
});
