// The lines of what otbench names by a number.

import assert from "node:assert/strict";
import { test } from "node:test";
import { lineOf, placeTold, stopTold } from "../../common/numbering.mjs";

/* Instructions 0 to 3 are lines 5, 7, 8 and 9. */
const TEXT = '; a note\n\nclients 2\nstart "a"\nedit 0 [1,"b"]\n; another\n take\t00 \r\ntake 0\nread-server\n';

test("a refused instruction", () => {
  assert.equal(stopTold(2, TEXT), "instruction 2 is line 8: take 0");
  assert.equal(stopTold(3, TEXT), "instruction 3 is line 9: read-server");
  assert.equal(placeTold({ verdict: "stopped", at: 1, line: 7, refusal: "Memory" }, TEXT), "instruction 1 is line 7: take 0");
  assert.equal(lineOf(1, TEXT), 7);
});

test("a place is behind the instruction that led to it, or before the one that is refused", () => {
  const told = (at, line) => placeTold({ verdict: "differs", at, line }, TEXT);
  assert.equal(told(1, 5), "place 1 is behind line 5, instruction 0: edit 0");
  assert.equal(told(4, 9), "place 4 is behind line 9, instruction 3: read-server");
  assert.equal(told(4, undefined), "place 4 is behind line 9, instruction 3: read-server", "of the end");
  assert.equal(told(1, 7), "place 1 is before line 7, instruction 1: take 0");
  assert.equal(placeTold({ verdict: "differs", at: 3, line: 9 }, `${TEXT}%%\n\u00a0\n{"at":1}\n`), "place 3 is before line 9, instruction 3: read-server");
});

test("no instruction, no sentence", () => {
  for (const answer of [{ verdict: "conforms" }, { verdict: "nothing compared" }, { verdict: "differs", at: 0 }, { verdict: "differs", at: 0, line: null }]) assert.equal(placeTold(answer, TEXT), null);
  assert.equal(stopTold(9, TEXT), null, "of another text");
  assert.equal(placeTold({ verdict: "differs", at: 1, line: 6 }, TEXT), null, "of another text");
  for (const number of [-1, 9, NaN]) assert.equal(lineOf(number, TEXT), null);
});
