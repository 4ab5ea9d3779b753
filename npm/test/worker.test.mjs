// The functions in a worker: the same values and errors, one call after the other, and cancelling.

import assert from "node:assert/strict";
import { spawnSync } from "node:child_process";
import { test } from "node:test";
import * as otbench from "../otbench.mjs";
import * as worker from "../worker.mjs";
import { example } from "./files.mjs";

const { openWorker, OtbenchError } = worker;

test("the same functions and the same values", async () => {
  const names = (module) => Object.keys(module).filter((name) => !/^(benchOf|openWorker|close)$/.test(name));
  assert.deepEqual(names(worker), names(otbench));
  const text = example("weak-order.ots");
  for (const name of ["run", "steps", "explain", "check", "assemble"]) assert.deepEqual(await worker[name](text), otbench[name](text));
  const image = otbench.assemble(text);
  assert.equal(await worker.disassemble(image), otbench.disassemble(image));
  assert.equal(image.length > 0, true, "what was given is still there");
  assert.deepEqual(await worker.judge({ replicas: 1, start: [], events: [] }), { holds: true, violation: null });
  assert.equal(await worker.generate({ seed: 3 }), otbench.generate({ seed: 3 }));
  assert.deepEqual(await worker.conform(text, otbench.steps(text)), otbench.conform(text, otbench.steps(text)));
  assert.deepEqual(await worker.serve(["run"], text), otbench.serve(["run"], text));
});

test("the same errors, as rejections", async () => {
  await assert.rejects(worker.run("bogus"), (error) => error instanceof OtbenchError && error.kind === "NoClients" && error.line === 1);
  await assert.rejects(worker.generate({ clients: 99 }), (error) => error.kind === "Usage");
  await assert.rejects(worker.run(undefined), TypeError);
});

test("calls are answered in their order", async () => {
  const bench = openWorker();
  const answered = [];
  const seeds = [1, 2, 3, 4, 5];
  await Promise.all(seeds.map((seed) => bench.generate({ seed, instructions: 1000 * (6 - seed) }).then(() => answered.push(seed))));
  assert.deepEqual(answered, seeds);
  bench.close();
});

/* A session that takes seconds. */
const long = () => otbench.generate({ instructions: 90_000, clients: 30 });

test("a call that runs is cancelled, and others go on", async () => {
  const bench = openWorker();
  await bench.run("clients 1\n");
  const controller = new AbortController();
  const running = bench.steps(long(), { documents: true, signal: controller.signal });
  const waiting = bench.run(example("two-clients.ots"));
  const began = performance.now();
  setTimeout(() => controller.abort(), 50);
  await assert.rejects(running, { name: "AbortError" });
  assert.equal((await waiting).server.document, "ba");
  assert.ok(performance.now() - began < 10_000);
  bench.close();
});

test("a call that waits is cancelled, and one that is cancelled before it begins", async () => {
  const bench = openWorker();
  const controller = new AbortController();
  const first = bench.run(example("two-clients.ots"));
  const second = bench.run("clients 1\n", { signal: controller.signal });
  controller.abort(new Error("not wanted any more"));
  await assert.rejects(second, { message: "not wanted any more" });
  assert.equal((await first).quiet, true);
  await assert.rejects(bench.run("clients 1\n", { signal: AbortSignal.abort() }), { name: "AbortError" });
  assert.equal((await bench.run("clients 1\n", { signal: new AbortController().signal })).quiet, true);
  bench.close();
});

test("a worker that is closed rejects what it has not answered, and a later call starts another", async () => {
  const bench = openWorker();
  const calls = [bench.run("clients 1\n"), bench.check("clients 1\n")];
  bench.close();
  for (const call of calls) await assert.rejects(call, { message: "the worker was closed" });
  assert.equal((await bench.run("clients 1\n")).quiet, true);
  bench.close();
});

test("a process ends though its worker was not closed, and not before it has answered", () => {
  const script = `import { run } from ${JSON.stringify(new URL("../worker.mjs", import.meta.url))}; run("clients 1\\n").then((it) => console.log(it.quiet));`;
  const { status, stdout } = spawnSync(process.execPath, ["--input-type=module", "-e", script], { encoding: "utf8", timeout: 60_000 });
  assert.deepEqual([status, stdout], [0, "true\n"]);
});
