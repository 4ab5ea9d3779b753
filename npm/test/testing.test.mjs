// otbench/testing: a port that conforms, ports with faults, drivers of their own, and ports that count otherwise.

import assert from "node:assert/strict";
import { test } from "node:test";
import { makePort } from "../../oracle/otjs.js";
import { bugs } from "../../conformance/faults.js";
import { OtbenchError, run, steps } from "../otbench.mjs";
import { valuesOf } from "../../common/schedule.mjs";
import { compare, conforms, corpus, drive, random } from "../../ports/testing.mjs";

/** ot.js with a fault planted in it. */
function faulty(name) {
  const port = makePort();
  bugs[name](port);
  return port;
}

const failing = (subject, options) =>
  conforms(subject, options).then(
    () => assert.fail("it conforms"),
    (error) => error,
  );

test("a port that is ot.js conforms, and what was compared is counted", async () => {
  const { sessions, every, compared } = await conforms(makePort(), { sessions: 10 });
  assert.equal(sessions, [...corpus()].length + every.reduce((sum, { sessions: count }) => sum + count, 0) + 10);
  assert.equal(compared.start, sessions);
  assert.ok(Object.values(compared).every((count) => count >= sessions), JSON.stringify(compared));
});

test("a fault is an AssertionError with a schedule of a few instructions, and conform's words", async () => {
  const error = await failing(faulty("tie"), { sessions: 5 });
  assert.equal(error.code, "ERR_ASSERTION");
  assert.equal(error.name, "AssertionError");
  assert.equal(error.answer.verdict, "differs");
  assert.ok(steps(error.schedule).length <= 8, error.schedule);
  assert.match(error.message, /^[a-z-]+: \d+ instructions, here reduced to [3-6]\n\nclients 2\n/);
  assert.ok(error.message.includes(`${error.schedule}\ndiffers at `));
  const { at, line, instruction } = error.answer;
  const place = `place ${at} is behind line ${line}, instruction ${at - 1}: ${instruction}`;
  assert.ok(error.message.includes(`\nnote that is what transform gives if the text of its second argument goes first\n${place}\n`), error.message);
  assert.ok(error.schedule.split("\n")[line - 1].startsWith(instruction), error.message);
  assert.deepEqual([error.actual, error.expected], [error.answer.found, error.answer.otjs]);
  assert.deepEqual(await compare(faulty("tie"), error.schedule), error.answer);
});

test("a fault that a session made at random finds, without the corpus", async () => {
  const error = await failing(faulty("whole-log"), { corpus: false, sessions: 20, seed: 999_999_990 });
  assert.match(error.session, /^session of seed \d+$/);
  assert.equal(run(error.schedule).stopped, null);
});

test("without time to reduce, the session is as it was found, up to the difference at most", async () => {
  const error = await failing(faulty("buffer-kept"), { reduceSeconds: 0 });
  const whole = [...corpus()].find(({ name }) => name === error.session).schedule;
  assert.equal(steps(error.schedule).length, steps(whole).length);
});

test("a driver, of lines, of one text, and of values, now or later", async () => {
  const drivers = [
    (schedule) => steps(schedule),
    (schedule) => steps(schedule).map((line) => JSON.stringify(line)),
    async (schedule) => steps(schedule).map((line) => JSON.stringify(line)).join("\n"),
  ];
  for (const driver of drivers) assert.equal((await conforms(driver, { every: 0, sessions: 2 })).sessions, [...corpus()].length + 2);
  const error = await failing((schedule) => steps(schedule).map(({ buffer, ...line }) => ({ ...line, buffer: null })));
  assert.match(error.answer.key, /^buffer$/);
});

test("a driver that throws fails, and the error is the cause", async () => {
  const driver = (schedule) => {
    if (schedule.includes("deliver")) throw new RangeError("no deliveries yet");
    return steps(schedule);
  };
  const error = await failing(driver, { sessions: 1 });
  assert.match(error.message, /reduced to 3\n[^]*deliver [^]*\n\nthe driver threw RangeError: no deliveries yet\n/);
  assert.ok(error.cause instanceof RangeError);
  assert.equal(error.answer, null);
});

test("a driver that fails but once is told as one", async () => {
  let calls = 0;
  const driver = (schedule) => (calls++ === 3 ? [] : steps(schedule));
  assert.match((await failing(driver)).message, /\nthe driver did not do this each time\n/);
});

test("a driver by which nothing can be compared does not conform", async () => {
  const error = await failing((schedule) => steps(schedule).filter((it) => it.do).map(({ at }) => ({ at, rev: 7 })));
  assert.match(error.message, /^nothing was compared/);
});

test("no port, no such option", async () => {
  await assert.rejects(conforms({ TextOperation() {}, Client() {} }), { name: "TypeError", message: /^ {4}Server$/m });
  await assert.rejects(conforms(undefined), TypeError);
  await assert.rejects(conforms(makePort(), { corpus: false, session: 5 }), (error) => error instanceof OtbenchError && error.kind === "Usage");
});

const PAIRS = 'clients 2\nstart "😀x"\nedit 0 [1,"é",1]\nedit 1 [-1,"𝒳",1]\ntake 0\ntake 1\nack 0\ndeliver 1\ndeliver 0\nack 1\nread 0\n';

test("a port that counts UTF-16 units sees pairs, and conforms", async () => {
  const seen = [];
  const watched = makePort();
  const { receiveOperation } = watched.Server.prototype;
  watched.Server.prototype.receiveOperation = function (revision, operation) {
    seen.push(operation.toJSON());
    return receiveOperation.call(this, revision, operation);
  };
  assert.equal((await compare(watched, PAIRS)).verdict, "conforms");
  assert.deepEqual(seen, [[2, "é", 1], ["𝒳", -2, 1]]);
  const lines = await drive(makePort(), PAIRS);
  assert.deepEqual(lines.find((line) => line.appended).appended, [1, "é", 1]);
  const messages = [{ revision: 0, operation: [1, "é", 1] }, { revision: 0, operation: ["𝒳", -1, 1] }, [1, "é", 1], ["𝒳", -1, 2]];
  assert.deepEqual(lines.flatMap(({ message }) => message ?? []), messages.flat());
});

test("a driver that counts UTF-16 units may give operations as they are", async () => {
  const { TextOperation } = makePort();
  const edit = new TextOperation().retain(2).insert("é").retain(1);
  const answer = await compare(() => [{ at: 0 }, { at: 1, edit, sent: { revision: 0, operation: edit } }], PAIRS, { utf16: true });
  assert.match(answer.key, /^line$/); // only that the second edit has no line
  assert.equal(answer.at, 2);
});

test("a port that counts scalars and is said to count units, and the other way", async () => {
  assert.match((await compare(makePort(), PAIRS, { utf16: false })).key, /stopped/);
  const scalars = (schedule) => steps(schedule);
  assert.equal((await compare(scalars, PAIRS)).verdict, "conforms");
  assert.equal((await compare(scalars, PAIRS, { utf16: true })).conforms, false);
});

test("an operation that cuts a pair, passes the end, or inserts half of a pair, is told so", async () => {
  const told = async (edit) => (await compare(() => [{ at: 0 }, { at: 1, edit }], 'clients 1\nstart "😀"\nedit 0 [1,"a"]\n', { utf16: true })).found;
  assert.equal(await told([1, "a", 1]), JSON.stringify('[1,"a",1] in UTF-16 units cuts a surrogate pair of "😀"'));
  assert.equal(await told([3, "a"]), JSON.stringify('[3,"a"] in UTF-16 units passes the end of "😀", which has 2'));
  assert.equal(await told([2, "\ud83d"]), JSON.stringify('[2,"\\ud83d"] inserts half of a surrogate pair'));
  assert.equal(await told([2, "a"]), undefined);
});

test("sessions made at random: their seeds, round the end of the seeds; those that end with 9 have more", () => {
  const namesFrom = (seed, options) => [...random({ sessions: 3, seed, instructions: 2, ...options })].map(({ name }) => name);
  assert.deepEqual(namesFrom(999_999_998), ["session of seed 999999998", "session of seed 999999999, 50 instructions", "session of seed 0"]);
  assert.deepEqual(namesFrom(18), ["session of seed 18", "session of seed 19, 16 instructions", "session of seed 20"]);
  assert.deepEqual(namesFrom(8), ["session of seed 8", "session of seed 9, a longer start", "session of seed 10"]);
  assert.deepEqual(namesFrom(8, { start: "x" })[1], "session of seed 9");
  const [{ schedule }] = random({ sessions: 1, seed: 9 });
  assert.equal(valuesOf(schedule).start.length, 300);
  const counts = [...random({ sessions: 1, seed: 99, clients: 1, instructions: 50_000, open: true })].map((it) => valuesOf(it.schedule).instructions.length);
  assert.deepEqual(counts, [100_000]);
});
