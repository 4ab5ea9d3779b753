// What a terminal would obey is shown by its number.

import assert from "node:assert/strict";
import test from "node:test";
import { shownOn, visible } from "../../common/visible.mjs";

test("control characters and those of bidirectional text are escaped, others stay", () => {
  assert.equal(visible('"a\u202eb\x1b[2J\x7f\x9b"\n\té😀👨\u200d👩'), '"a\\u202eb\\u001b[2J\\u007f\\u009b"\n\té😀👨\u200d👩');
  assert.equal(JSON.parse(visible(JSON.stringify("\u2066\x85"))), "\u2066\x85");
});

test("an output that is no terminal has the text as it is", () => {
  assert.deepEqual([{ isTTY: true }, {}].map((output) => shownOn(output, "\u202e")), ["\\u202e", "\u202e"]);
});
