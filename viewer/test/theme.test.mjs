// The colours.

import assert from "node:assert/strict";
import { test } from "node:test";
import { GROUNDS, LEGIBLE, contrast, variablesOf, withValues } from "../src/theme.mjs";
import { markupOf, tree } from "../src/tree.mjs";

test("contrast is that of WCAG", () => {
  assert.equal(contrast("#000000", "#ffffff"), 21);
  assert.equal(contrast("#777777", "#ffffff").toFixed(2), "4.48");
});

test("in both themes texts are read on what they stand on", () => {
  const rows = [
    ...["ink", "dim", "faint", "bad", ...Array.from({ length: 64 }, (_, c) => `client-${c}`)].flatMap((text) => GROUNDS.map((ground) => [text, ground])),
    ["dim", "badge"],
    ["good", "good-soft"],
    ["good", "background"],
    ["accent", "soft"],
    ["accent", "background"],
  ];
  for (const theme of ["light", "dark"]) {
    const colours = variablesOf(theme);
    for (const [text, ground] of rows) {
      const found = contrast(colours[`--${text}`], colours[`--${ground}`]);
      assert.ok(found >= LEGIBLE, `${theme}: ${text} on ${ground} has ${found.toFixed(2)}`);
    }
  }
});

test("a picture has the values of colours, and texts as they are", () => {
  const drawn = tree("text", { fill: "var(--ink)" }, "var(--ink) var(--none)");
  assert.equal(markupOf([withValues(drawn, "light")]), '<text fill="#1c2128">var(--ink) var(--none)</text>');
});
