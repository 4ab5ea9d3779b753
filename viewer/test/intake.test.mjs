// What the page says of a file that is refused: the words of `explain`, or the fault alone where it has none.

import assert from "node:assert/strict";
import { test } from "node:test";
import { readWhole, takeIn } from "../src/intake.mjs";

const NOTHING = new Uint8Array(0);
const refused = (errors) => ({ status: 1, output: NOTHING, errors });

/* What a page does with a file, where its engine answers words so: what is dispatched, and the judged trace. */
async function taken(input, answers) {
  const dispatched = [];
  const bench = { settled: async () => {}, ask: async (words) => answers[words.join(" ")], dispatch: (it) => dispatched.push(it), state: {} };
  const judged = await takeIn(bench, new TextEncoder().encode(input), "a");
  return { dispatched, judged };
}

const notice = async (input, answers) => (await taken(input, answers)).dispatched.map((it) => it.notice);

test("a file that is too large, or cannot be read, is not taken", async () => {
  const file = (size, name = "a.ots") => ({ name, size, arrayBuffer: async () => (size === 7 ? Promise.reject(new Error("no")) : new ArrayBuffer(3)) });
  assert.deepEqual(await readWhole(file(2 ** 28)), { name: "a.ots", bytes: new Uint8Array(3) });
  assert.deepEqual(await readWhole(file(2 ** 28 + 1)), { fault: "a.ots has more than 268,435,456 bytes, and is not opened." });
  assert.deepEqual(await readWhole(file(7)), { fault: "a.ots cannot be read: it is a folder, or the browser may not read it." });
  const { fault } = await readWhole(file(2 ** 40, `\u202e<img>${"x".repeat(100_000)}`));
  assert.ok(fault.length < 150 && !fault.includes("\u202e"), fault);
});

test("an image and a plan that are refused", async () => {
  const rows = [
    ["OTS2\0", "dis", "byte 5: Cut", "explain --image", "count of instructions: found 0 of 4 bytes", "a is no image of a schedule"],
    ['{"typing":[]}', "threads", "BadShape", "explain --plan", "clients: found nothing; wanted a number from 1 to 64", "The plan a is not carried out"],
  ];
  for (const [input, command, fault, asked, words, said] of rows) {
    assert.deepEqual(await notice(input, { [command]: refused(`otbench: ${fault}\n`), [asked]: refused(`otbench: ${fault}\n  ${words}\n`) }), [`${said}: otbench: ${fault}: ${words}.`]);
    assert.deepEqual(await notice(input, { [command]: refused("otbench: Memory\n"), [asked]: refused("") }), [`${said}: otbench: Memory.`]);
  }
});

test("a trace that is refused, and one that is judged", async () => {
  const words = "replicas: found nothing; wanted a number from 1 to 65";
  assert.deepEqual(await notice('{"events":[]}', { "explain --trace": refused(`otbench: BadShape\n  ${words}\n`) }), [`The trace a is not judged: otbench: BadShape: ${words}.`]);
  const answer = (output) => ({ status: 1, output: new TextEncoder().encode(output), errors: "" });
  const { judged } = await taken('{"events":[]}', { "explain --trace": answer("doubled 0 0:0\n  event 0 is a read\n"), "judge --json": answer('{"verdict":"doubled","events":[0],"tags":[[0,0]]}\n') });
  assert.deepEqual(judged, { trace: { events: [] }, verdict: { holds: false, words: "doubled 0 0:0\nevent 0 is a read", events: [0], tags: ["0:0"] } });
});
