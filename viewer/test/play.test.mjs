// Sessions made at random by what the page's clicks and keys call: what the page has at each place is what the program's steps
// fold to. PAGE_SESSIONS says how many, PAGE_SEED the first one's seed.

import assert from "node:assert/strict";
import { test } from "node:test";
import { chance } from "../../recorder/test/live_session.js";
import { Bench } from "../src/bench.mjs";
import { textOf } from "../../common/document.mjs";
import { SERVER, fold } from "../../common/fold.mjs";
import { documentAt, downAt, headsAt, logLengthAt, quietAt, stateAt, upAt } from "../../common/places.mjs";
import { documentNow, isAnswered, shownPlace } from "../src/state.mjs";
import { DirectEngine, serveProgram, skip } from "./engines.mjs";

const SESSIONS = Number(process.env.PAGE_SESSIONS || 60);
const SEED = Number(process.env.PAGE_SEED || 1);
const ACTIONS = 26;
const TEXTS = ["a", "be", "🙂", "\n", "é́", '"\\', "-5", "\u0000", "aaa", "x\ud800", ""];

const openBench = () => {
  const bench = new Bench(() => {}, async () => {});
  bench.use(new DirectEngine());
  return bench;
};

/* What a user does next, of what the page offers at its place. */
function doNext(bench, random) {
  const { state } = bench;
  const client = random(state.session.clients + (random(40) === 0 ? 1 : 0));
  const one = (list) => list[random(list.length)];
  switch (random(14)) {
    case 0:
      return bench.dispatch({ do: "go", place: random(state.session.length + 2) });
    case 1:
      return bench.dispatch({ do: one(["undo", "redo", "undo", "takeOut", "leaveOut"]) });
    case 2:
      return random(3) ? undefined : bench.quiet();
    case 3:
      return bench.dispatch({ do: "name", client, name: one(["Ann", "", "<b>"]) });
    case 4: {
      const lines = state.text.split("\n");
      const line = 1 + random(lines.length);
      const change = one([[], [`take ${client}`], ['edit 0 ["t"]'], ["; a comment"], ["edit 0 [", "x"]]);
      return bench.dispatch({ do: "write", text: lines.toSpliced(line, random(2), ...change).join("\n"), line, tag: `write ${random(3)}` });
    }
    case 5:
      return bench.dispatch({ do: "play", instructions: [one([`read ${client}`, `join ${client}`, "read-server", `ack ${client}`])] });
    default:
      return random(2) ? typeNext(bench, client, random) : playHead(bench, client);
  }
}

function typeNext(bench, client, random) {
  const length = documentNow(bench.state, client)?.length ?? 0;
  const from = random(length + 1);
  const to = from + random(Math.min(3, length - from + 1));
  bench.dispatch({ do: "type", client, from, to, text: TEXTS[random(TEXTS.length)] });
}

function playHead(bench, client) {
  const { session } = bench.state;
  if (!session.members[client]) return;
  const { up, down } = headsAt(session, client, shownPlace(bench.state));
  const instructions = [up, down[0]].filter(Boolean).slice(0, 1);
  bench.dispatch({ do: "play", instructions });
}

/* A user who mends the text: undoes what has a fault, leaves out what is refused, and lets everything through. */
async function mend(bench, random) {
  for (let count = 0; bench.state.fault && count < 40; count++) {
    bench.dispatch({ do: "undo" });
    await bench.settled();
  }
  for (let count = 0; bench.state.session.stop && count < 80; count++) {
    bench.dispatch({ do: "leaveOut" });
    await bench.settled();
  }
  if (random(3) === 0) return;
  bench.dispatch({ do: "go", place: bench.state.session.length });
  await bench.quiet();
}

function checkPlace(session, expected, place) {
  for (const who of [SERVER, ...expected.members.keys()]) {
    const [ours, theirs] = [session, expected].map((of) => documentAt(of, who, place).map(({ character, maker, born }) => [character, maker, born]));
    assert.deepEqual(ours, theirs, `document of ${who} at ${place}`);
  }
  for (const client of expected.members.keys()) {
    assert.deepEqual(stateAt(session, client, place), stateAt(expected, client, place));
    assert.deepEqual(downAt(session, client, place), downAt(expected, client, place));
    const [ours, theirs] = [upAt(session, client, place), upAt(expected, client, place)];
    assert.deepEqual([ours?.operation, ours?.revision, ours?.sent, ours?.got], [theirs?.operation, theirs?.revision, theirs?.sent, theirs?.got]);
  }
  assert.equal(logLengthAt(session, place), logLengthAt(expected, place));
  assert.equal(quietAt(session, place), quietAt(expected, place));
}

function check(bench) {
  const { state } = bench;
  const { output, errors, status } = serveProgram(["steps"], state.text);
  if (output.length === 0) {
    assert.equal(errors.length > 0 && status, 1);
    assert.match(new TextDecoder().decode(errors), new RegExp(`line ${state.fault.line}: ${state.fault.kind}\n`));
    return "fault";
  }
  const expected = fold(new TextDecoder().decode(output).trimEnd().split("\n"));
  const { session } = state;
  assert.deepEqual([isAnswered(state), state.fault], [true, null]);
  assert.deepEqual(session.steps.map((step) => step?.line), expected.steps.map((step) => step?.line));
  assert.deepEqual([session.stop, session.end, session.messages.length], [expected.stop, expected.end, expected.messages.length]);
  assert.equal(Boolean(state.refusal), Boolean(expected.stop));
  for (let place = 0; place <= expected.length; place++) checkPlace(session, expected, place);
  return expected.stop ? "stop" : expected.end;
}

test(`${SESSIONS} sessions made at random`, { skip }, async () => {
  const seen = {};
  for (let seed = SEED; seed < SEED + SESSIONS; seed++) {
    const random = chance(seed);
    const bench = openBench();
    const clients = 1 + random(4);
    const present = random(3) ? clients : random(clients + 1);
    bench.dispatch({ do: "open", text: `clients ${clients}\npresent ${present}\nstart ${JSON.stringify(["", "xy", "🙂"][random(3)])}\n` });
    await bench.settled();
    for (let count = 0; count < ACTIONS; count++) {
      await doNext(bench, random);
      if (random(3)) await bench.settled();
    }
    await bench.settled();
    if (random(2)) await mend(bench, random);
    await bench.settled();
    try {
      const end = check(bench);
      seen[end] = (seen[end] ?? 0) + 1;
    } catch (fault) {
      fault.message = `seed ${seed}: ${fault.message}\n${bench.state.text}`;
      throw fault;
    }
  }
  for (const end of ["quiet", "not quiet", "stop", "fault"]) assert.ok(SESSIONS < 50 || seen[end] > 0, `${end}: ${JSON.stringify(seen)}`);
});

test("what is typed before the engine has answered is not lost", { skip }, async () => {
  const bench = openBench();
  bench.dispatch({ do: "open", text: "clients 2\n" });
  await bench.settled();
  for (const [i, text] of [..."quick🙂"].entries()) bench.dispatch({ do: "type", client: 0, from: i, to: i, text });
  bench.dispatch({ do: "type", client: 1, from: 0, to: 0, text: "z" });
  assert.equal(textOf(documentNow({ ...bench.state }, 0) ?? []), "quick🙂");
  await bench.settled();
  assert.deepEqual(bench.state.text.split("\n").slice(1, 8), ['edit 0 ["q"]', 'edit 0 [1,"u"]', 'edit 0 [2,"i"]', 'edit 0 [3,"c"]', 'edit 0 [4,"k"]', 'edit 0 [5,"🙂"]', 'edit 1 ["z"]']);
  assert.equal(bench.state.place, 7);
});

test("what is said goes with the next change, and a session that was begun with what users typed stays so until another one opens", { skip }, async () => {
  const bench = openBench();
  bench.dispatch({ do: "open", text: "clients 2\n", isGuided: true });
  bench.dispatch({ do: "notice", notice: "it is copied" });
  await bench.settled();
  bench.dispatch({ do: "type", client: 0, from: 0, to: 0, text: "a" });
  assert.deepEqual([bench.state.notice, bench.state.isGuided], ["", true]);
  bench.dispatch({ do: "notice", notice: "it is copied" });
  bench.dispatch({ do: "undo" });
  assert.deepEqual([bench.state.notice, bench.state.isGuided], ["", true]);
  bench.dispatch({ do: "open", text: "clients 1\n" });
  assert.equal(bench.state.isGuided, false);
  bench.dispatch({ do: "undo" });
  assert.equal(bench.state.isGuided, true);
});

test("what is typed into a document while the text has a fault is refused in words", { skip }, async () => {
  const bench = openBench();
  bench.dispatch({ do: "open", text: "clients 2\n" });
  await bench.settled();
  bench.dispatch({ do: "write", text: "clients 2\nedit", line: 1, tag: null });
  bench.dispatch({ do: "type", client: 0, from: 0, to: 0, text: "a" });
  await bench.settled();
  assert.equal(bench.state.fault.line, 2);
  assert.match(bench.state.notice, /^The text has a fault/);
  bench.dispatch({ do: "type", client: 0, from: 0, to: 0, text: "a" });
  assert.equal(bench.state.text, "clients 2\nedit");
  bench.dispatch({ do: "undo" });
  await bench.settled();
  bench.dispatch({ do: "type", client: 0, from: 0, to: 0, text: "b" });
  assert.equal(bench.state.text, 'clients 2\nedit 0 ["b"]\n', "and is not typed later");
});

test("everything that is under way is let through, and undone as one", { skip }, async () => {
  const bench = openBench();
  const text = 'clients 3\nedit 0 ["a"]\nedit 0 [1,"b"]\nedit 1 ["c"]\nread 2\n';
  bench.dispatch({ do: "open", text, place: 3 });
  await bench.settled();
  await bench.quiet();
  await bench.settled();
  const { session, place } = bench.state;
  assert.equal(quietAt(session, place), "quiet");
  assert.match(bench.state.text, /\nread 2\n$/);
  bench.dispatch({ do: "undo" });
  assert.deepEqual([bench.state.text, bench.state.place], [text, 3]);
  bench.dispatch({ do: "redo" });
  await bench.settled();
  assert.equal(quietAt(bench.state.session, place), "quiet");
});

test("an instruction in the midst keeps what comes behind, and what does not fit is refused with its reason", { skip }, async () => {
  const bench = openBench();
  bench.dispatch({ do: "open", text: 'clients 1\nstart "x"\nedit 0 [1,"a"]\nread 0\n' });
  await bench.settled();
  bench.dispatch({ do: "type", client: 0, from: 0, to: 0, text: "y" });
  await bench.settled();
  assert.equal(bench.state.text, 'clients 1\nstart "x"\nedit 0 ["y",1]\nedit 0 [1,"a"]\nread 0\n');
  assert.equal(bench.state.place, 1);
  const { line, reason } = bench.state.refusal;
  assert.equal(line, 4);
  assert.match(reason, /^BadBase: .*span the whole document/);
  bench.dispatch({ do: "leaveOut" });
  await bench.settled();
  assert.deepEqual([bench.state.refusal, bench.state.session.end], [null, "not quiet"]);
});

test("a port's lines stand beside the session, and the verdicts come when nothing changes", { skip }, async () => {
  const bench = openBench();
  const text = 'clients 1\nedit 0 ["a"]\ntake 0\nack 0\n';
  bench.dispatch({ do: "open", text, port: ['{"at":1,"document":"b"}'] });
  while (bench.state.verdict === null) await new Promise((done) => setTimeout(done, 20));
  const { quiet, unsettled, verdict } = bench.state.verdict;
  assert.deepEqual([quiet, unsettled, verdict], [true, [], "holds"]);
  assert.deepEqual([bench.state.beside.first, bench.state.beside.words[0]], [1, "differs at 1: edit 0: client 0 document"]);
  bench.dispatch({ do: "undo" });
  assert.equal(bench.state.text, text, "the first session is not undone");
  bench.dispatch({ do: "compare", port: null });
  assert.equal(bench.state.beside, null);
  bench.dispatch({ do: "undo" });
  while (bench.state.beside === null) await new Promise((done) => setTimeout(done, 20));
});

test("keys of a port's lines that steps does not have are shown, also where the port conforms", { skip }, async () => {
  const bench = openBench();
  const words = async (line) => {
    bench.dispatch({ do: "open", text: "clients 1\nread 0\n", port: [line] });
    while (bench.state.beside === null) await new Promise((done) => setTimeout(done, 20));
    return [bench.state.beside.answer.verdict, bench.state.beside.words.at(-1)];
  };
  assert.deepEqual(await words('{"at":1,"document":"","docment":1}'), ["conforms", "unknown docment in line 5"]);
  assert.deepEqual(await words('{"at":1,"docment":1}'), ["nothing compared", "unknown docment in line 5"]);
  assert.deepEqual(await words('{"at":1,"document":""}'), ["conforms", undefined]);
});

test("a text that the engine works on for long is given up when it has become another one", { skip }, async () => {
  let stop = null;
  let loads = 0;
  class SlowEngine extends DirectEngine {
    async load() {
      loads++;
    }

    giveUp() {
      stop?.(new Error("given up"));
    }

    steps(text) {
      if (!text.includes("slow")) return super.steps(text);
      return new Promise((_, failed) => (stop = failed));
    }
  }
  const bench = new Bench(() => {}, async () => {});
  bench.use(new SlowEngine());
  bench.dispatch({ do: "open", text: "clients 1\n; slow\n" });
  await new Promise((done) => setTimeout(done, 1600));
  bench.dispatch({ do: "open", text: "clients 1\nread 0\n" });
  await bench.settled();
  assert.deepEqual([bench.state.session.length, bench.state.fault, loads], [1, null, 2]);
});
