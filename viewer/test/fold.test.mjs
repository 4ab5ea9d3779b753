// The fold gives every document, client state and link of a session, at every place.

import assert from "node:assert/strict";
import { test } from "node:test";
import { textOf } from "../../common/document.mjs";
import { SERVER, fold } from "../../common/fold.mjs";
import { documentAt, downAt, logLengthAt, quietAt, stateAt, upAt } from "../../common/places.mjs";
import { arrivedWords } from "../src/words.mjs";
import { example, linesOf, portLinesOf, seededSchedule } from "./sessions.mjs";

test("the lines of these tests are those of `otbench steps`", () => {
  const steps = [
    '{"at":0,"clients":2,"present":2,"start":"x"}',
    '{"at":1,"do":"edit","client":0,"edit":[1,"z"],"revision":0,"state":"awaiting-confirm","outstanding":[1,"z"],"sent":{"revision":0,"operation":[1,"z"]}}',
    '{"at":5,"do":"take","client":1,"revision":1,"appended":["c",1]}',
    '{"at":6,"do":"take","client":0,"revision":2,"appended":[2,"z"]}',
    '{"at":7,"do":"deliver","client":0,"revision":1,"state":"awaiting-with-buffer","outstanding":[2,"z"],"buffer":["a",1,-1,1],"applied":[1,"c",1]}',
    '{"at":16,"do":"read-server","document":"acz"}',
    '{"at":16,"end":"quiet"}',
  ];
  const lines = linesOf(example("weak-order")).map((line) => JSON.parse(line));
  for (const line of steps.map((text) => JSON.parse(text))) {
    const ours = lines.find((other) => other.at === line.at && (other.end === undefined) === (line.end === undefined));
    assert.deepEqual(ours, line);
  }
});

const documentsAt = (session, place) =>
  [...session.members.keys(), SERVER].map((who) => textOf(documentAt(session, who, place))).join(" ");

test("the documents of two users at each place", () => {
  const session = fold(linesOf(example("weak-order")));
  const expected = [
    "x x x",
    "xz x x",
    "xaz x x",
    "az x x",
    "az cx x",
    "az cx cx",
    "az cx cxz",
    "acz cx cxz",
    "acz cx cxz",
    "acz cx acz",
    "acz cx acz",
    "acz cxz acz",
    "acz acz acz",
    "acz acz acz",
  ];
  assert.equal(session.length, 16);
  for (const [place, documents] of expected.entries()) assert.equal(documentsAt(session, place), documents, `at ${place}`);
  assert.equal(documentsAt(session, 7), expected[7], "and again, backwards");
  assert.equal(session.end, "quiet");
});

test("who inserted each character, and where", () => {
  const session = fold(linesOf(example("weak-order")));
  const authors = (who, place) => documentAt(session, who, place).map((e) => `${e.character}${e.maker}@${e.born}`).join(" ");
  assert.equal(authors(0, 3), "a0@2 z0@1");
  assert.equal(authors(0, 7), "a0@2 c1@4 z0@1");
  assert.equal(authors(SERVER, 6), "c1@4 x-1@0 z0@1");
  assert.equal(authors(1, 12), "a0@2 c1@4 z0@1");
  assert.ok(documentAt(session, 0, 16).every((e, i) => e === documentAt(session, 1, 16)[i]), "the same elements");
});

test("states and links", () => {
  const session = fold(linesOf(example("weak-order")));
  assert.deepEqual(stateAt(session, 0, 7), {
    at: 7,
    revision: 1,
    state: "awaiting-with-buffer",
    outstanding: [2, "z"],
    buffer: ["a", 1, -1, 1],
  });
  assert.deepEqual(upAt(session, 0, 5).operation, [1, "z"]);
  assert.equal(upAt(session, 0, 6), null);
  assert.deepEqual([upAt(session, 0, 8).revision, upAt(session, 0, 8).operation], [2, ["a", 1, -1, 1]]);
  assert.deepEqual(downAt(session, 1, 7), { from: 0, to: 2 });
  assert.deepEqual(downAt(session, 0, 7), { from: 1, to: 2 });
  assert.equal(logLengthAt(session, 4), 0);
  assert.equal(quietAt(session, 7), "not quiet: client 0 is awaiting-with-buffer; 1 more client is not quiet");
  assert.equal(quietAt(session, 11), "not quiet: client 0 is awaiting-confirm; 1 more client is not quiet");
  assert.equal(quietAt(session, 13), "quiet");
  assert.equal(arrivedWords(session, 7), "Not all messages have arrived: client 0 awaits a confirmation; 1 more client waits");
  assert.equal(arrivedWords(session, 13), "All messages have arrived");
});

test("a client that joins has the server's document", () => {
  const session = fold(linesOf(example("late-join")));
  assert.equal(stateAt(session, 1, 2).state, "not-joined");
  assert.deepEqual(downAt(session, 1, 2), { from: 1, to: 1 });
  assert.equal(documentsAt(session, 2), "xa  xa");
  assert.equal(documentsAt(session, 3), "xa xa xa");
  assert.equal(documentAt(session, 1, 3)[1].maker, 0);
  assert.equal(documentsAt(session, 8), "bxa bxa bxa");
});

test("a refused instruction and the end", () => {
  const session = fold(linesOf('clients 2\nedit 0 ["a"]\ntake 0\ndeliver 0\n'));
  assert.equal(session.length, 2);
  assert.deepEqual([session.stop.at, session.stop.do, session.stop.client], [2, "deliver", 0]);
  assert.equal(session.end, "not quiet");
  assert.equal(quietAt(session, 2), "not quiet: client 0 is awaiting-confirm; 1 more client is not quiet");
  assert.equal(quietAt(session, 0), "quiet");
});

test("seeded sessions: every document that ot.js has, at every place", () => {
  const kinds = [{ clients: 1 }, { clients: 3, edits: 60 }, { clients: 8, late: 3, edits: 80 }, { cut: true }];
  for (const kind of kinds) {
    for (let seed = 1; seed <= 5; seed++) {
      const schedule = seededSchedule({ ...kind, seed });
      const session = fold(linesOf(schedule));
      for (const line of portLinesOf(schedule).map((text) => JSON.parse(text))) {
        if (line.do === undefined) continue;
        const who = line.do === "take" || line.do === "read-server" ? SERVER : line.client;
        assert.equal(textOf(documentAt(session, who, line.at)), line.document, `seed ${seed}, at ${line.at}`);
      }
    }
  }
});

/* What a session tells at each place. */
function told(session) {
  const at = (place) => ({
    documents: documentsAt(session, place),
    members: [...session.members.keys()].map((client) => [stateAt(session, client, place), upAt(session, client, place), downAt(session, client, place)]),
    quiet: quietAt(session, place),
    step: session.steps[place],
  });
  return { places: [...session.steps.keys()].map(at), messages: session.messages, log: session.log, stop: session.stop, end: session.end };
}

test("a session up to a place is that of the lines up to there, goes on by itself, and leaves the whole one as it is", () => {
  for (const kind of [{ clients: 3, edits: 12 }, { clients: 4, late: 2, edits: 12 }, { cut: true, edits: 10 }]) {
    const lines = linesOf(seededSchedule({ ...kind, seed: 3 }));
    const whole = fold(lines);
    const expected = told(fold(lines));
    for (let place = 0; place <= whole.length; place++) {
      const front = whole.upTo(place);
      assert.deepEqual(told(front), told(fold(lines.slice(0, place + 1))), `up to ${place}`);
      for (const line of lines.slice(place + 1)) front.add(JSON.parse(line));
      assert.deepEqual(told(front), expected, `on from ${place}`);
      assert.deepEqual(told(whole), expected, `the whole one, after ${place}`);
    }
  }
});

test("lines that do not fit one another are named", () => {
  const lines = linesOf(example("weak-order"));
  const change = (number, values) => lines.map((text, i) => (i === number ? JSON.stringify({ ...JSON.parse(text), ...values }) : text));
  const rows = [
    [[], "there are no lines"],
    [lines.slice(1), "line 1 is no line of otbench steps: the opening is missing"],
    [lines.toSpliced(3, 1), "line 4 is no line of otbench steps: it is at 4, and not at 3"],
    [change(3, { edit: [1, "q"] }), "line 4 is no line of otbench steps: its operation does not fit the document"],
    [change(4, { client: 2 }), "line 5 is no line of otbench steps: there is no client 2"],
    [change(5, { client: 0, appended: [1, "zz"] }), "line 6 is no line of otbench steps: its operation inserts another text"],
    [change(7, { applied: undefined }), "line 8 is no line of otbench steps: it has no operation"],
    [change(10, { do: "jump" }), 'line 11 is no line of otbench steps: there is no instruction "jump"'],
    [change(14, { document: "caz" }), "line 15 is no line of otbench steps: its document is another"],
  ];
  for (const [faulty, message] of rows) assert.throws(() => fold(faulty), { message });
});
