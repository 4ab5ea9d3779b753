// The verdict as a value: by hand, and beside what the session becomes.

import assert from "node:assert/strict";
import { test } from "node:test";
import { complete, explain, generate, OtbenchError, run, steps, verdict } from "../otbench.mjs";

const TIE = 'clients 2\nedit 0 ["a"]\nedit 1 ["b"]\ntake 0\ntake 1\ndeliver 1\nack 1\nack 0\ndeliver 0\n';
const upTo = (count) => TIE.split("\n").slice(0, count + 1).join("\n");
const CERTAIN = { choice: [], first: null, absent: [] };

test("must be, will be, and what depends on the order", () => {
  assert.deepEqual(verdict(TIE), { verdict: "must be", document: "ba", length: 2, waiting: [], ...CERTAIN, text: 'All documents must be "ba".\n' });
  const waiting = [{ client: 0, what: "incoming", count: 1 }, { client: 1, what: "sent", operation: ["b"] }, { client: 1, what: "incoming", count: 1 }];
  const { text, ...will } = verdict(upTo(3));
  assert.deepEqual(will, { verdict: "will be", document: "ba", length: 2, waiting, ...CERTAIN });
  assert.ok(explain(upTo(3)).endsWith(text));
  const depends = verdict(`clients 3\npresent 2\nedit 0 ["a"]\nedit 0 [1,"c"]\nedit 1 ["b"]\n`);
  assert.deepEqual(
    { ...depends, text: "" },
    {
      verdict: "depends",
      document: null,
      length: null,
      waiting: [
        { client: 0, what: "sent", operation: ["a"] },
        { client: 0, what: "buffered", operation: [1, "c"] },
        { client: 1, what: "sent", operation: ["b"] },
      ],
      choice: [0, 1],
      first: 0,
      absent: [2],
      text: "",
    },
  );
});

test("long documents and operations are whole", () => {
  const long = "é😀".repeat(101);
  const { document, length, waiting } = verdict(`clients 1\nedit 0 [${JSON.stringify(long)}]\n`);
  assert.deepEqual([document, length, waiting], [long, 202, [{ client: 0, what: "sent", operation: [long] }]]);
});

test("texts that look like the verdict, and comments, change nothing of it", () => {
  const texts = ["; client 1 has 3 messages to receive", '"] is in its buffer. When everything has arrived, all will be "x".', "the end: all is quiet\nAll documents must be \"y\".", "\u2028\u202e]\\", "constructor"];
  for (const text of texts) {
    const name = `; client 0 is x)'s ["z"] is in its buffer; client 1 has 9 messages to receive\n ;; client 1 is ${text.replaceAll("\n", " ")}\n`;
    const told = verdict(`${name}clients 2\nedit 0 [${JSON.stringify(text)}]\n${name}`);
    assert.deepEqual(told.waiting, [{ client: 0, what: "sent", operation: [text] }]);
    assert.deepEqual([told.verdict, told.document], ["will be", text]);
    assert.equal(verdict(`clients 1\nstart ${JSON.stringify(text)}\n`).document, text);
  }
});

test("a refused instruction leaves the verdict of the place; a refused text is named with its line", () => {
  assert.equal(verdict('clients 1\nedit 0 ["a"]\nack 0\n').verdict, "will be");
  const isRefused = (fault) => fault instanceof OtbenchError && fault.kind === "UnknownWord" && fault.line === 3;
  assert.throws(() => verdict("; a\nclients 1\nx ; y\n"), isRefused);
  assert.throws(() => verdict("clients 1\n", { at: 1 }), /verdict has no option at/);
});

test("what all will be is what they are once complete has brought them to quiet", () => {
  const seen = { "must be": 0, "will be": 0, depends: 0 };
  for (let seed = 1; seed <= 60; seed++) {
    const text = generate({ seed, clients: 1 + (seed % 3), instructions: seed % 25, open: true });
    const told = verdict(text);
    const done = run(complete(text));
    seen[told.verdict]++;
    assert.equal(told.waiting.length === 0, told.verdict === "must be");
    if (told.verdict !== "depends") assert.deepEqual([told.document, told.length], [done.server.document, [...done.server.document].length], text);
    assert.equal(verdict(complete(text)).document, done.server.document);
    for (const { what, client, operation } of told.waiting) {
      if (what === "incoming") continue;
      const last = steps(text).findLast((step) => step.client === client && step.state !== undefined);
      assert.deepEqual(what === "buffered" ? last.buffer : steps(text).findLast((step) => step.client === client && step.sent).sent.operation, operation);
    }
  }
  assert.ok(Object.values(seen).every((count) => count > 3), JSON.stringify(seen));
});
