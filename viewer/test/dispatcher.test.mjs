// The engine behind its worker: what it says of a text, and what of that has changed.

import assert from "node:assert/strict";
import { test } from "node:test";
import { faultOf } from "../src/bench.mjs";
import { equalFront } from "../src/dispatcher.mjs";
import { fold } from "../../common/fold.mjs";
import { followLines } from "../src/follow.mjs";
import { DirectEngine, skip } from "./engines.mjs";
import { example } from "./sessions.mjs";

test("equal lines at the front", () => {
  const rows = [["", "", 0], ["a\nb\n", "a\nb\n", 4], ["a\nb\n", "a\nbc\n", 2], ["a\n", "b\n", 0], ["ab\n", "a\n", 0], ["a\nb\n", "a\n", 2]];
  const bytes = (text) => new TextEncoder().encode(text);
  for (const [before, after, count] of rows) assert.equal(equalFront(bytes(before), bytes(after)), count, JSON.stringify([before, after]));
});

test("only lines that have changed are told", { skip }, async () => {
  const engine = new DirectEngine();
  const first = await engine.steps(example("weak-order"));
  assert.deepEqual([first.keep, first.rest.trim().split("\n").length], [0, 18]);
  const same = await engine.steps(example("weak-order"));
  assert.deepEqual([same.keep, same.rest], [18, ""]);
  const shorter = await engine.steps(example("weak-order").replace(/read-server\n$/, ""));
  assert.deepEqual([shorter.keep, shorter.rest], [16, '{"at":15,"end":"quiet"}\n']);
});

test("a fault with its column and what stands there, and a refusal with its reason", { skip }, async () => {
  const engine = new DirectEngine();
  const fault = async (text) => faultOf(await engine.steps(text));
  const cause = 'found "0,\\"a\\"]"; wanted an operation, such as [1,"a",-2]; no component is 0, and no number begins with 0';
  assert.deepEqual(await fault('clients 2\nedit 0 [0,"a"]\n'), { line: 2, column: 9, kind: "BadOperation", cause });
  const words = 'found "edti"; wanted present, start, edit, take, deliver, ack, read, read-server or join; nearest: edit';
  assert.deepEqual(await fault("clients 2\n edti 0\n"), { line: 2, column: 2, kind: "UnknownWord", cause: words });
  assert.equal((await engine.steps("")).rest, null);
  const { refusal } = await engine.steps('clients 2\nedit 0 ["a"]\ntake 0\ndeliver 0\n');
  assert.equal(refusal, "WrongHead: the next message to client 0 acknowledges its own operation: ack 0");
  assert.deepEqual(faultOf({ fault: "", errors: "otbench: Memory\n" }), { line: 0, column: 0, kind: "otbench: Memory", cause: "" });
});

test("a session that follows changes is that of the lines", { skip }, async () => {
  const engine = new DirectEngine();
  const head = 'clients 2\nedit 0 ["a"]\n';
  const texts = [head, `${head}take 0\n`, `${head}take 0\ndeliver 0\nack 0\n`, `${head}take 0\nack 0\n`, `${head}take 0\nack 0\ndeliver 1\n`, head, "clients 1\n", `${head}take 1\n`];
  let session = null;
  let pauses = 0;
  for (const text of texts) {
    session = await followLines(session, await engine.steps(text), async () => void pauses++);
    const fresh = fold(new TextDecoder().decode(engine.serve(["steps"], new TextEncoder().encode(text)).output).trim().split("\n"));
    assert.deepEqual(session.steps.map((step) => step && step.line), fresh.steps.map((step) => step && step.line));
    assert.deepEqual([session.stop, session.end, session.log.length], [fresh.stop, fresh.end, fresh.log.length]);
  }
});
