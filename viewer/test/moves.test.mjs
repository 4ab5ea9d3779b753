// From a place to another one, and what keys play there.

import assert from "node:assert/strict";
import { test } from "node:test";
import { SERVER, fold } from "../../common/fold.mjs";
import { otherEnd, sameMember, towards } from "../src/moves.mjs";
import { headsAt } from "../../common/places.mjs";
import { emptyState, reduce } from "../src/state.mjs";
import { example, linesOf } from "./sessions.mjs";

const at = (place, more = {}) => ({ ...emptyState(), session: fold(linesOf(example("weak-order"))), place, ...more });

test("on and back, of all or of one participant", () => {
  assert.deepEqual([towards(at(0), 1), towards(at(16), 1), towards(at(0), -1), towards(at(5), -1)], [1, 16, 0, 4]);
  assert.deepEqual([0, 4, 5, 10, 11, 12, 15].map((place) => towards(at(place, { followed: 1 }), 1)), [4, 5, 10, 11, 12, 15, 15]);
  assert.equal(towards(at(16, { followed: SERVER }), -1), 9);
});

test("the other end of a message, and the same participant's instruction", () => {
  assert.deepEqual([1, 6, 7, 9, 14].map((place) => otherEnd(at(place))), [6, 1, 5, 8, 14]);
  assert.deepEqual([sameMember(at(9), -1), sameMember(at(7), 1), sameMember(at(0), 1)], [8, 8, 0]);
});

test("the heads of links", () => {
  const { session } = at(0);
  assert.deepEqual(headsAt(session, 0, 5), { up: "take 0", down: ["deliver 0"] });
  assert.deepEqual(headsAt(session, 1, 7), { up: null, down: ["ack 1", "deliver 1"] });
  const late = fold(linesOf(example("late-join")));
  assert.deepEqual(headsAt(late, 1, 2), { up: null, down: [] });
});

test("undo keeps a thousand steps, and a burst of typing is one", () => {
  let state = reduce(emptyState(), { do: "open", text: "clients 1\n" });
  assert.equal(state.past.length, 0);
  for (const [i, letter] of [..."; abc"].entries()) state = reduce(state, { do: "write", text: `${state.text}${letter}`, line: 1, tag: i < 3 ? "write 1" : "write 2" });
  assert.equal(state.past.length, 2);
  state = reduce(state, { do: "undo" });
  assert.equal(state.text, "clients 1\n; a");
  state = reduce(reduce(state, { do: "undo" }), { do: "undo" });
  assert.equal(state.text, "clients 1\n");
  state = reduce(reduce(state, { do: "redo" }), { do: "redo" });
  assert.deepEqual([state.text, state.future.length], ["clients 1\n; abc", 0]);
  for (let i = 0; i < 1500; i++) state = reduce(state, { do: "play", instructions: ["read 0"] });
  assert.equal(state.past.length, 1001);
});
