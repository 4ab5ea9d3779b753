// A trace that was judged.

import assert from "node:assert/strict";
import fs from "node:fs";
import { test } from "node:test";
import { traceTable, verdictOf } from "../src/trace.mjs";
import { markupOf } from "../src/tree.mjs";
import { serveProgram, skip } from "./engines.mjs";

const traceMarkup = (...given) => markupOf([traceTable(...given)]);
const file = (name) => fs.readFileSync(new URL(`../../examples/${name}.json`, import.meta.url), "utf8");

test("each verdict, and the words below it", () => {
  const words = "reversed 2 4 0:0 1:0\nevent 7 is a read; of 1:1\nand more";
  const told = "reversed 2 4 0:0 1:0\n  event 7 is a read; of 1:1\n  and more\n";
  assert.deepEqual(verdictOf({ verdict: "reversed", events: [2, 4], tags: [[0, 0], [1, 0]] }, told), { holds: false, words, events: [2, 4], tags: ["0:0", "1:0"] });
  assert.deepEqual(verdictOf({ verdict: "holds" }, "holds\n"), { holds: true, words: "holds", events: [], tags: [] });
});

test("a violation in its lists", { skip }, () => {
  for (const name of ["reversed", "bad-visibility", "extra", "missing", "wrong-place", "weak-order"]) {
    const judged = JSON.parse(new TextDecoder().decode(serveProgram(["judge", "--json"], file(name)).output));
    const verdict = verdictOf(judged, new TextDecoder().decode(serveProgram(["explain", "--trace"], file(name)).output));
    const markup = traceMarkup(JSON.parse(file(name)), verdict);
    assert.equal((markup.match(/class="at-fault"/g) || []).length, verdict.events.length, name);
    if (name === "reversed") assert.equal(markup.match(/<mark>/g).length, 4);
  }
});

test("texts of a trace are shown as texts", () => {
  const event = { replica: "<b>", kind: "<script>", seen: ["<i>"], list: [["<u>", 0]] };
  assert.doesNotMatch(traceMarkup({ events: [event] }, verdictOf({ verdict: "holds" }, "holds")), /<(b|i|u|script)>/);
});

test("of many events those of the verdict are shown", () => {
  const events = Array.from({ length: 1000 }, () => ({ replica: 0, kind: "read", seen: [0], list: [] }));
  const markup = traceMarkup({ events }, verdictOf({ verdict: "reversed", events: [500, 900], tags: [[0, 0], [1, 0]] }, ""));
  assert.equal(markup.match(/at-fault/g).length, 2);
  assert.match(markup, /… 480 events …/);
});
