// The verdicts on sessions that drivers perform, in their order.

import assert from "node:assert/strict";
import { test } from "node:test";
import { setTimeout as pause } from "node:timers/promises";
import { Judge } from "../../ports/judging.mjs";
import { conform, conformMany, steps } from "../otbench.mjs";
import { steadyPace } from "../../ports/pace.mjs";
import { eachInOne } from "../../ports/processes.mjs";

const schedule = (text) => `clients 1\nedit 0 [${JSON.stringify(text)}]\ntake 0\nack 0\nread 0\nread-server\n`;
const right = (text) => steps(schedule(text), { documents: true });
const wrong = (text) => right(text).map((line) => (line.document ? { ...line, document: "?" } : line));

const bench = { conform, conformMany };

const judgeOf = (subject, bench) =>
  new Judge({ newDriver: () => ({ isProcess: false, performed: [], perform: async (text) => ({ lines: await subject(text) }), close: async () => null }), jobs: 1, isKept: false, pace: steadyPace(10), bench });

async function verdicts(subject, texts, bench, how) {
  const found = [];
  for await (const { fails, schedule: text } of judgeOf(subject, bench).together(texts, how)) found.push([text, fails]);
  return found;
}

test("verdicts are in the order of the sessions", async () => {
  const texts = [..."abcdefghijklmnopqrstuvwxyz"].map(schedule);
  const found = await verdicts((text) => (/"[qv]"/.test(text) ? wrong(/"(.)"/.exec(text)[1]) : steps(text, { documents: true })), texts, bench);
  assert.deepEqual(found, texts.map((text) => [text, /"[qv]"/.test(text)]));
});

test("what was performed is compared while the next session takes long", async () => {
  const seen = [];
  const subject = async (text) => {
    if (text === schedule("f")) await pause(400);
    seen.push(text);
    return steps(text, { documents: true });
  };
  for await (const verdict of judgeOf(subject, bench).together([..."abcdefg"].map(schedule))) {
    if (verdict.schedule === schedule("e")) assert.ok(!seen.includes(schedule("f")));
  }
});

test("at most one, two, four sessions are compared together and so on, and a large one alone", async () => {
  const lines = new Map([..."abcdefghijklmnopqrst"].map((text) => [schedule(text), steps(schedule(text), { documents: true })]));
  const large = `clients 1\n${"; a comment\n".repeat(1000)}read 0\n`;
  const counts = [];
  const counting = { conform: (...given) => counts.push(1) && conform(...given), conformMany: (sessions) => counts.push(sessions.length) && conformMany(sessions) };
  await verdicts((text) => lines.get(text), lines.keys(), counting);
  assert.ok(counts.every((count, at) => count <= 2 ** at), String(counts));
  assert.equal(counts.splice(0).reduce((sum, count) => sum + count), lines.size);
  await verdicts((text) => lines.get(text) ?? steps(text), [...lines.keys()].slice(0, 2).concat(large), counting);
  assert.deepEqual(counts.splice(0), [1, 1, 1]);
  let performed = 0;
  for await (const { fails } of judgeOf((text) => (++performed === 3 ? wrong("c") : lines.get(text)), bench).together(lines.keys())) if (fails) break;
  assert.ok(performed < 8, String(performed));
});

test("it ends where it is dropped", async () => {
  const drop = new AbortController();
  const subject = async (text) => {
    if (text === schedule("c")) drop.abort();
    return steps(text, { documents: true });
  };
  assert.deepEqual(await verdicts(subject, [..."abcdef"].map(schedule), bench, { dropped: drop.signal }), [..."ab"].map((it) => [schedule(it), false]));
  assert.deepEqual(await verdicts(subject, [schedule("a")], bench, { dropped: AbortSignal.abort() }), []);
});

test("a driver that gets no processor has more time, but not without end", async () => {
  const judgeWith = (isStarved, milliseconds) => {
    const perform = (text, { signal }) =>
      new Promise((resolve) => {
        const timer = setTimeout(() => resolve({ lines: steps(text, { documents: true }) }), milliseconds);
        signal.addEventListener("abort", () => {
          clearTimeout(timer);
          resolve({ lines: [], trouble: `the driver was ended: it ${signal.reason}`, isEnded: true });
        });
      });
    return new Judge({ newDriver: () => ({ isProcess: true, performed: [], perform, isStarved, close: async () => null }), jobs: 1, isKept: false, pace: steadyPace(0.1, () => 1), bench });
  };
  assert.equal((await judgeWith(() => true, 250).judge([schedule("a")])).fails, false);
  let looks = 0;
  assert.equal((await judgeWith(() => ++looks % 2 === 0, 450).judge([schedule("a")])).fails, false, "at every other look it waits for something");
  assert.equal((await judgeWith(() => true, 60_000).judge([schedule("a")])).trouble, "the driver was ended: it took more than 0.5 s");
  assert.equal((await judgeWith(() => false, 60_000).judge([schedule("a")])).trouble, "the driver was ended: it took more than 0.1 s");
});

test("a driver that answered while this process stood still has answered in time", async () => {
  const said = steps(schedule("a"), { documents: true }).map((line) => JSON.stringify(line)).join("\n");
  const newDriver = () => eachInOne(["sh", "-c", 'cat >/dev/null; echo "$1"', "sh", said], 1_000_000);
  const judge = new Judge({ newDriver, jobs: 1, isKept: false, pace: steadyPace(0.5, () => 1), bench });
  const verdict = judge.judge([schedule("a")]);
  setTimeout(() => Atomics.wait(new Int32Array(new SharedArrayBuffer(4)), 0, 0, 3000));
  assert.equal((await verdict).trouble, undefined);
});
