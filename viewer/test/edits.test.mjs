// What a person types, as an operation.

import assert from "node:assert/strict";
import { test } from "node:test";
import { changeBetween, editOf } from "../src/edits.mjs";

test("the least operation, in scalars", () => {
  const rows = [
    ["", 0, 0, "a", ["a"]],
    ["ab", 1, 1, "x", [1, "x", 1]],
    ["ab", 1, 2, "", [1, -1]],
    ["ab", 0, 2, "", [-2]],
    ["abc", 1, 2, "xy", [1, "xy", -1, 1]],
    ["abc", 0, 3, "abd", [2, "d", -1]],
    ["abc", 0, 3, "xbc", ["x", -1, 2]],
    ["aaa", 0, 0, "a", ["a", 3]],
    ["aaa", 3, 3, "a", [3, "a"]],
    ["aba", 0, 3, "a", [1, -2]],
    ["abc", 0, 3, "abc", null],
    ["abc", 1, 1, "", null],
    ["🙂b", 1, 1, "👨‍👩‍👧", [1, "👨‍👩‍👧", 1]],
    ["🙂b", 0, 1, "🙃", ["🙃", -1, 1]],
    ["a", 1, 1, "x\ud83dy", [1, "x\ufffdy"]],
    ["a", 1, 1, "\u0000\t\u2028-5", [1, "\u0000\t\u2028-5"]],
  ];
  for (const [document, from, to, text, expected] of rows) assert.deepEqual(editOf([...document], from, to, text), expected, JSON.stringify([document, text]));
});

test("what an input method did, by where the caret stands", () => {
  const rows = [
    ["aaa", "aaaa", 1, { from: 0, to: 0, text: "a" }],
    ["aaa", "aaaa", 3, { from: 2, to: 2, text: "a" }],
    ["aaa", "aa", 1, { from: 1, to: 2, text: "" }],
    ["ni", "に", 1, { from: 0, to: 2, text: "に" }],
    ["x", "x🙂", 2, { from: 1, to: 1, text: "🙂" }],
    ["abc", "abc", 2, { from: 2, to: 2, text: "" }],
    ["abc", "xbc", 3, { from: 0, to: 1, text: "x" }],
    ["abcd", "aXd", 0, { from: 1, to: 3, text: "X" }],
  ];
  for (const [before, after, caret, expected] of rows) assert.deepEqual(changeBetween([...before], [...after], caret), expected, `${before} ${after} ${caret}`);
});

test("a change always leads from the one text to the other", () => {
  const texts = ["", "a", "aa", "ab", "aba", "bab", "abab", "🙂a", "a🙂🙂"];
  for (const before of texts)
    for (const after of texts)
      for (let caret = 0; caret <= [...after].length; caret++) {
        const { from, to, text } = changeBetween([...before], [...after], caret);
        assert.equal([...before].toSpliced(from, to - from, ...text).join(""), after);
      }
});
