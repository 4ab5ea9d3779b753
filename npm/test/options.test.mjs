// otbench/testing: options are refused by their names before anything runs.

import assert from "node:assert/strict";
import { test } from "node:test";
import { makePort } from "../../oracle/otjs.js";
import { OtbenchError } from "../otbench.mjs";
import { compare, conforms, drive, random } from "../../ports/testing.mjs";

/* A port that must not be touched. */
const untouched = () => {
  throw new Error("it was run");
};

const refusal = (message) => (error) => {
  assert.ok(error instanceof OtbenchError, String(error));
  assert.equal(error.kind, "Usage");
  assert.match(error.message, message);
  return true;
};

const REFUSED = [
  [{ sessions: NaN }, /^sessions is NaN; it takes a whole number from 1 to 1,000,000$/],
  [{ sessions: 0 }, /^sessions is 0; /],
  [{ sessions: "3" }, /^sessions is "3"; /],
  [{ sessions: 1.5 }, /^sessions is 1.5; /],
  [{ sessions: null }, /^sessions is null; /],
  [{ seed: "1" }, /^seed is "1"; it takes a whole number from 0 to 999,999,999$/],
  [{ seed: -1 }, /^seed is -1; /],
  [{ seed: 1n }, /^seed is 1; /],
  [{ clients: 65 }, /^clients is 65; it takes a whole number from 1 to 64$/],
  [{ instructions: Infinity }, /^instructions is Infinity; /],
  [{ open: 1 }, /^open is 1; it takes true or false$/],
  [{ start: 3 }, /^start is 3; it takes a string$/],
  [{ corpus: "no" }, /^corpus is "no"; it takes true or false$/],
  [{ every: 4 }, /^every is 4; it takes a whole number from 0 to 3$/],
  [{ every: "2" }, /^every is "2"; /],
  [{ every: true }, /^every is true; /],
  [{ utf16: 0 }, /^utf16 is 0; /],
  [{ reduceSeconds: -1 }, /^reduceSeconds is -1; it takes a number of seconds, 0 to 1,000,000$/],
  [{ accessors: { revison: () => 0 } }, /^accessors is \{\}; it takes an object of functions, of revision, outstanding, buffer, document, operations$/],
  [{ known: ["inverse"] }, /^known is \["inverse"\]; it takes a list of laws, of invert, .*, and of kinds of failures, as the option all names them$/],
  [{ need: ["documents"] }, /^need is \["documents"\]; it takes a list of keys, of clients, .*document, end, message$/],
  [{ signal: {} }, /^signal is \{\}; it takes an AbortSignal$/],
  [{ onSession: "x" }, /^onSession is "x"; it takes a function/],
  [{ tap: true }, /^tap is true; it takes a function of a line$/],
  [{ junit: "" }, /^junit is ""; it takes the path of a file$/],
  [{ session: 5 }, /^conforms has no option session; its options: .*sessions/],
  [{ toString: 5 }, /^conforms has no option toString; /],
  [null, /^conforms takes its options as an object, such as \{ seed: 7 \}$/],
  [7, /^conforms takes its options as an object/],
];

test("each option of `conforms` that is not understood is refused by its name, before the port is looked at", async () => {
  for (const [options, message] of REFUSED) {
    await assert.rejects(conforms(untouched, options), refusal(message));
    await assert.rejects(conforms({}, options), refusal(message));
  }
});

test("`random` refuses at its call, and so do `compare` and `drive`", async () => {
  assert.throws(() => random({ sessions: 0 }), refusal(/^sessions is 0; /));
  assert.throws(() => random({ corpus: false }), refusal(/^random has no option corpus; /));
  await assert.rejects(compare(untouched, "clients 1\n", { sessions: 2 }), refusal(/^compare has no option sessions; its options: utf16, accessors$/));
  await assert.rejects(drive(untouched, "clients 1\n", { utf16: "yes" }), refusal(/^utf16 is "yes"; /));
});

test("an option that is undefined is left out", async () => {
  const options = { sessions: undefined, seed: undefined, clients: undefined, open: undefined };
  assert.equal([...random(options)].length, 100);
  assert.equal((await conforms(makePort(), { corpus: false, sessions: 1, start: "ab", present: 1, accessors: undefined })).sessions, 1);
});
