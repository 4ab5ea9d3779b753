// While the engine has not answered: the text has what was played, and the picture stays at the place that it was played at.

import assert from "node:assert/strict";
import { test } from "node:test";
import { textOf } from "../../common/document.mjs";
import { fold } from "../../common/fold.mjs";
import { played } from "../src/playing.mjs";
import { documentNow, emptyState, isAnswered, reduce, shownPlace } from "../src/state.mjs";
import { linesOf } from "./sessions.mjs";

const TEXT = 'clients 2\nedit 0 ["a"]\nedit 1 ["b"]\ntake 0\ntake 1\n';

const answerOf = ({ text }) => ({ do: "answer", text, session: fold(linesOf(text)), refusal: null, took: 1 });

/* The state of a text at a place, answered, after some actions. */
function after(place, ...actions) {
  const opened = reduce(emptyState(), { do: "open", text: TEXT, place });
  return actions.reduce(reduce, reduce(opened, answerOf(opened)));
}

const play = (...instructions) => ({ do: "play", instructions });

test("what is played one upon the other is behind one another in the text, and the place follows the answer", () => {
  const asked = after(4, play("deliver 1"), play("ack 1"));
  assert.equal(asked.text, `${TEXT}deliver 1\nack 1\n`);
  assert.deepEqual([isAnswered(asked), asked.asked, shownPlace(asked)], [false, ["deliver 1", "ack 1"], 4]);
  const answered = reduce(asked, answerOf(asked));
  assert.deepEqual([isAnswered(answered), answered.asked, shownPlace(answered)], [true, [], 6]);
});

test("in the midst of a session the picture shows no instruction of what comes behind", () => {
  const asked = after(2, play("read 0"));
  assert.deepEqual([asked.place, shownPlace(asked)], [3, 2]);
  const old = reduce(asked, { ...answerOf({ text: TEXT }) });
  assert.deepEqual([shownPlace(old), old.asked], [2, ["read 0"]], "an answer to the text before changes nothing of that");
  assert.deepEqual([shownPlace(reduce(asked, { do: "go", place: 4 }))], [4], "who goes elsewhere is there");
});

test("a message that is let through next in the text too is stepped over, and nothing is asked", () => {
  const state = after(2, play("take 0"));
  assert.deepEqual([state.text, isAnswered(state), state.asked, shownPlace(state), state.past], [TEXT, true, [], 3, []]);
});

test("any other change of the text, and a fault, end it", () => {
  const asked = after(4, play("deliver 1"));
  for (const action of [{ do: "undo" }, { do: "write", text: "clients 1\n", line: 0, tag: "" }, { do: "fault", fault: {}, took: 1 }, { do: "takeOut" }])
    assert.deepEqual([reduce(asked, action).asked, reduce(asked, action).stood], [[], null], action.do);
});

test("letters that are typed meanwhile are in the document, and stay there while messages are played", () => {
  const letter = (from, text) => ({ do: "type", client: 0, from, to: from, text });
  const typed = after(2, letter(1, "x"), letter(2, "y"));
  assert.equal(textOf(documentNow(typed, 0)), "axy");
  assert.deepEqual([typed.asked, shownPlace(typed), typed.place], [[], 2, 4]);
  const both = reduce(typed, play("take 1"));
  assert.deepEqual([both.asked, textOf(both.draft.elements), documentNow(both, 0)], [["take 1"], "axy", null]);
});

test("keys play what is behind on the link, and no message twice", () => {
  const state = { ...after(4), chosen: 1 };
  assert.deepEqual(played(state, "next"), { instruction: "deliver 1" });
  const once = { ...reduce(state, play("deliver 1")), chosen: 1 };
  assert.deepEqual(played(once, "next"), { instruction: "ack 1" });
  const twice = { ...reduce(once, play("ack 1")), chosen: 1 };
  assert.deepEqual(played(twice, "next"), { reason: "Nothing is under way to client 1." });
  const early = { ...after(2, play("take 1")), chosen: 1 }; // its line is moved up
  assert.deepEqual(played(early, "take"), { reason: "The engine has not answered take 1 yet." });
});
