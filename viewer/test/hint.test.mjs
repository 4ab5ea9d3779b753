// What the page says is to be done next follows the session, and what was noted.

import assert from "node:assert/strict";
import fs from "node:fs";
import { test } from "node:test";
import { hintOf } from "../src/hint.mjs";
import { SERVER, fold } from "../../common/fold.mjs";
import { Port } from "../../common/printed.mjs";
import { emptyState, reduce } from "../src/state.mjs";
import { linesOf } from "./sessions.mjs";

const EDITS = 'clients 2\nedit 0 ["a"]\nedit 1 ["b"]\n';
const QUIET = `; client 1 is Ben\n${EDITS}take 0\ntake 1\ndeliver 1\nack 1\nack 0\ndeliver 0\n`;

/* The state of a session that was opened, and answered. */
function stateOf(text, more = {}) {
  const open = reduce(emptyState(), { do: "open", text, isGuided: true, ...more });
  return reduce(open, { do: "answer", text, session: fold(linesOf(text)), refusal: null, took: 0 });
}

/* The same when conform has answered to what was noted. */
function answeredState(text, notes, answer, place = 8) {
  const port = notes.map(([at, who, document, word]) => JSON.stringify(who === SERVER ? { at, do: word, document } : { at, client: who, document }));
  const state = stateOf(text, { port, place });
  return { ...state, beside: new Port(state.session, port, { answer: { unknown: [], ...answer }, words: [] }) };
}

test("from an empty session to all messages", () => {
  assert.match(hintOf(stateOf("clients 2\n")), /^Type what each user typed/);
  assert.match(hintOf(stateOf(EDITS, { place: 2 })), /^Let the messages through/);
  assert.match(hintOf(stateOf(QUIET, { place: 3 })), /^Let the messages through/);
  assert.match(hintOf(stateOf(QUIET, { place: 8 })), /^All messages have arrived here\. Enter what each editor showed/);
});

/* A difference of client 1's text, that of the server's, and what is noted of both clients and of the server. */
const DIFFERS = { verdict: "differs", at: 5, client: 1, key: "document", found: '"x"', otjs: '"ba"' };
const OF_SERVER = { ...DIFFERS, at: 4, client: null };
const ORDER = { order: { first: 1, then: 0 } };
const BOTH = [[5, 1, "x"], [8, 0, "ba"]];
const ALL = [[4, SERVER, "ba", "take"], ...BOTH];

test("behind the first text the hint says whose is next, and where it is entered, whether it differs or not", () => {
  const next = "Next is client 1 (Ben): enter what its editor showed at the end, at I saw … on its card.";
  assert.equal(hintOf(answeredState(QUIET, [[8, 0, "ba"]], { verdict: "conforms" })), next);
  assert.equal(hintOf(answeredState(QUIET, [[8, 0, "x"]], { ...DIFFERS, at: 8, client: 0 })), next);
  assert.equal(hintOf(answeredState(QUIET, [[8, 0, "x"]], { ...DIFFERS, at: 8, client: 0, ...ORDER })), next);
  assert.equal(hintOf(answeredState(QUIET, [[4, SERVER, "ab", "take"]], { ...OF_SERVER, ...ORDER })), next.replace("1 (Ben)", "0"));
  const there = "Next is client 0: go to the end (▶|), and enter what its editor showed there, at I saw … on its card.";
  assert.equal(hintOf(answeredState(QUIET, [[5, 1, "x"]], DIFFERS, 5)), there);
  assert.match(hintOf(answeredState(QUIET, [[8, 0, "ba"], [5, 1, "ba"]], { verdict: "conforms" })), /^No editor differs from ot\.js here\./);
  const three = QUIET.replace("clients 2", "clients 3");
  assert.doesNotMatch(hintOf(answeredState(three, BOTH, DIFFERS)), /^Next/, "two texts are a report");
});

test("where a client's text differs that of the server is asked for, since the server may be the cause", () => {
  const asked = "The server may be the cause: enter what its document showed, at I saw … on its card. Not known? ";
  assert.equal(hintOf(answeredState(QUIET, BOTH, DIFFERS)), `${asked}Go to place 5, where it differs first.`);
  assert.equal(hintOf(answeredState(QUIET, BOTH, DIFFERS, 5)), `${asked}Ask Why?, then Copy for an issue.`);
  assert.match(hintOf(answeredState(QUIET, [[3, SERVER, "a", "take"], ...BOTH], DIFFERS)), /^The server may be the cause/, "of an earlier text of the server");
  assert.match(hintOf(answeredState(QUIET, ALL, DIFFERS)), /^Go to place 5, where it differs first/);
  assert.match(hintOf(answeredState(QUIET, ALL, DIFFERS, 5)), /^Why\? says what ot\.js did here\./);
  const more = `${QUIET}edit 0 [2,"c"]\ntake 0\n`;
  assert.match(hintOf(answeredState(more, BOTH, DIFFERS, 5)), /^The server may be the cause: go to the end \(▶\|\), and enter its text, at I saw … on its card\./);
  assert.match(hintOf(answeredState(more, BOTH, DIFFERS, 6)), /^Go to place 5/, "its last text is not entered there");
});

test("it is not asked for where nothing of the server's is in the client's text, or its own text differs", () => {
  const own = { ...DIFFERS, at: 2 };
  const notes = [[2, 1, "x"], [8, 0, "ba"]];
  assert.match(hintOf(answeredState(QUIET, notes, own)), /^Go to place 2/);
  assert.match(hintOf(answeredState(QUIET, notes, own, 2)), /^Why\? says/);
  assert.match(hintOf(answeredState(QUIET, ALL, OF_SERVER)), /^Go to place 4/);
  assert.match(hintOf(answeredState(QUIET, ALL, OF_SERVER, 4)), /^Why\? says/);
});

test("the order that a tie suggests is asked for where the text differs, and who is wrong else", () => {
  const took = "Did the server take client 1 (Ben)’s edit first? Then let it through first. ";
  const ordered = { ...DIFFERS, ...ORDER };
  assert.equal(hintOf(answeredState(QUIET, BOTH, ordered, 5)), `${took}Not known? Enter the server’s text, at I saw … on its card.`);
  assert.equal(hintOf(answeredState(`${QUIET}edit 0 [2,"c"]\ntake 0\n`, BOTH, ordered, 5)), `${took}Not known? Enter the server’s text at the end (▶|), at I saw ….`);
  assert.equal(hintOf(answeredState(QUIET, ALL, ordered, 5)), `${took}Else the editor is wrong: ask Why?, then Copy for an issue.`);
  assert.equal(hintOf(answeredState(QUIET, ALL, { ...OF_SERVER, ...ORDER }, 4)), `${took}Else the server is wrong: ask Why?, then Copy for an issue.`);
});

test("the buttons that hints name are so called on the page", () => {
  const html = fs.readFileSync(new URL("../src/page.html", import.meta.url), "utf8");
  const hint = hintOf(answeredState(QUIET, ALL, DIFFERS, 5));
  assert.equal(hint, "Why? says what ot.js did here. Copy for an issue copies all of it.");
  for (const name of ["Why?", "Copy for an issue", "▶|"]) assert.ok(html.includes(`>${name}</button>`), name);
  assert.match(html, /<button id="report"[^>]* title="Copy the session as Markdown: [^"]*">Copy for an issue</);
});

test("while an answer is awaited no hint is of the state before; a fault of the text is told elsewhere", () => {
  const awaited = stateOf(QUIET, { port: ['{"at":8,"client":0,"document":"ba"}'], place: 8 });
  assert.equal(hintOf(awaited), "What you noted is being compared …");
  assert.equal(hintOf({ ...stateOf(EDITS), fault: { line: 1, column: 1, kind: "x", cause: "" } }), "");
});

test("a session that is only looked at has none, and one with notes has", () => {
  assert.equal(hintOf(stateOf(QUIET, { isGuided: false })), "");
  assert.equal(hintOf(emptyState()), "");
  assert.equal(hintOf({ ...stateOf(QUIET, { isGuided: false }), port: ['{"at":1,"document":"a"}'] }), "", "a port's lines");
  assert.notEqual(hintOf({ ...answeredState(QUIET, [[8, 0, "ba"]], { verdict: "conforms" }), isGuided: false }), "");
});

test("each has room: three lines of a narrow window", () => {
  const states = [stateOf("clients 2\n"), stateOf(EDITS, { place: 2 }), stateOf(QUIET, { place: 8 }), answeredState(QUIET, [[8, 0, "ba"], [5, 1, "ba"]], { verdict: "conforms" })];
  const more = `${QUIET}edit 0 [2,"c"]\ntake 0\n`;
  for (const notes of [[[5, 1, "x"]], BOTH, ALL])
    for (const answer of [DIFFERS, { ...DIFFERS, ...ORDER }, { ...OF_SERVER, ...ORDER }])
      for (const text of [QUIET, more]) states.push(...[4, 5, 8].map((place) => answeredState(text, notes, answer, place)));
  for (const state of states) assert.ok(hintOf(state).length <= 140, `${hintOf(state).length}: ${hintOf(state)}`);
});
