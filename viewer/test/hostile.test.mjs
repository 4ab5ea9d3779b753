// Hostile values in each field of each kind of input that the page draws: each is refused by name, or shown as text.

import assert from "node:assert/strict";
import { test } from "node:test";
import { picture } from "../src/diagram.mjs";
import { fold } from "../../common/fold.mjs";
import { rowCount } from "../src/layout.mjs";
import { legend } from "../src/legend.mjs";
import { Port } from "../../common/printed.mjs";
import { outlineOf } from "../../common/outline.mjs";
import { traceTable } from "../src/trace.mjs";
import { markupOf } from "../src/tree.mjs";
import { drawn, isOwn } from "./drawing.mjs";
import { HOSTILE } from "./hostile.mjs";
import { example, linesOf } from "./sessions.mjs";

test("in each field of each line of steps", () => {
  const lines = [...linesOf(example("weak-order")), ...linesOf(example("late-join"))];
  const sessions = [linesOf(example("weak-order")), linesOf(example("late-join"))];
  sessions[1].splice(-1, 0, JSON.stringify({ at: fold(sessions[1]).length, do: "edit", client: 0, edit: [9], stopped: "BadBase" }));
  assert.ok(lines.length > 20);
  for (const session of sessions)
    session.forEach((text, number) => {
      const line = JSON.parse(text);
      for (const key of Object.keys(line))
        for (const value of HOSTILE) {
          const changed = session.toSpliced(number, 1, JSON.stringify({ ...line, [key]: value }));
          let folded;
          try {
            folded = fold(changed);
          } catch (fault) {
            assert.match(fault.message, /^line \d+ is no line of otbench steps: /);
            continue;
          }
          drawn(folded);
        }
    });
});

test("in the parts of a message, and in keys that lines do not have", () => {
  const lines = linesOf(example("weak-order"));
  const line = JSON.parse(lines[1]);
  for (const value of HOSTILE) {
    for (const sent of [{ ...line.sent, revision: value }, { ...line.sent, operation: [value] }, { ...line.sent, operation: value }])
      assert.throws(() => drawn(fold(lines.toSpliced(1, 1, JSON.stringify({ ...line, sent }))), /its sent cannot be /));
    if (typeof value === "string") drawn(fold(lines.toSpliced(1, 1, lines[1].replace("{", `{${JSON.stringify(value.slice(0, 999))}:1,`))));
  }
});

test("in what a port printed, and in the names of clients", () => {
  const lines = linesOf(example("weak-order"));
  const session = fold(lines);
  for (const value of HOSTILE) {
    const told = typeof value === "string" ? value : JSON.stringify(value);
    const port = Object.keys(JSON.parse(lines[7])).map((key) => JSON.stringify({ ...JSON.parse(lines[7]), at: 1, [key]: value }));
    for (const line of [...port, told, `{"__proto__":${JSON.stringify(value)}}`]) drawn(session, { port: new Port(session, [line], null) });
    const { names } = outlineOf(`; client 0 is ${told}\n; client 1 is ${JSON.stringify(told)}\n`);
    drawn(session, { names });
  }
});

test("in each field of a trace's events", () => {
  const event = { replica: 0, kind: "update", insert: [[0, 0, 0]], delete: [[0, 1]], seen: [0], list: [[0, 0]] };
  const { events } = JSON.parse('{"events":[]}');
  for (const value of HOSTILE) {
    const changed = [...Object.keys(event).map((key) => ({ ...event, [key]: [value] })), { ...event, list: [[value, value]], insert: [[value, value, value]] }];
    isOwn(traceTable({ events: [...events, ...changed] }, { holds: false, words: JSON.stringify(value), events: [0, 1], tags: [JSON.stringify(value)] }));
  }
  isOwn(legend());
});

test("a text is no markup in a picture, and no character stands in it that XML does not allow", () => {
  const session = fold(linesOf('clients 1\nedit 0 ["var(--ink)<b>&\\ufffe\\u0001"]\n'));
  const whole = picture(session, { from: 0, to: rowCount(session) - 1, place: 1, followed: null, port: null }, "light");
  assert.match(whole, /var\(--ink\)/);
  assert.doesNotMatch(whole, /<b>|[\ufffe\u0001]/);
  assert.equal(markupOf(["\ufffe\ud800<"]), "\ufffd\ufffd&lt;");
});
