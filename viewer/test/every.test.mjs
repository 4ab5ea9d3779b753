// Every session of two edits in the page, by its outcome.

import assert from "node:assert/strict";
import { test } from "node:test";
import { Bench } from "../src/bench.mjs";
import { byOutcome } from "../src/every.mjs";
import { DirectEngine, skip } from "./engines.mjs";

const OF_TWO = ["--clients", "2", "--edits", "2", "--letters", "2"];

test("sessions are listed by the document at their end", { skip }, async () => {
  const bench = new Bench(
    () => {},
    async () => {},
  );
  bench.use(new DirectEngine());
  const sessions = await bench.every(OF_TWO);
  assert.equal(sessions.length, 97);
  const outcomes = byOutcome(sessions);
  assert.equal(outcomes.reduce((sum, [, numbers]) => sum + numbers.length, 0), 97);
  const found = outcomes.map(([document]) => JSON.parse(document));
  const wanted = ["aAbB", "abBA", "bBaA", "AbB", "abB", "bBA", "bBa", "aA", "bB", "A", "a", ""];
  assert.deepEqual(found, wanted, "bB at each place among the letters of aA that are left, or not at all");
  for (const number of outcomes.find(([document]) => document === '"bB"')[1]) assert.ok(!sessions[number].text.includes("aA") || sessions[number].text.includes("-2"));
  await assert.rejects(bench.every(["--edits", "7"]), /--edits/);
});
