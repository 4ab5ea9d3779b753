// The sessions that a port is tried over, and reducing them.

import assert from "node:assert/strict";
import { test } from "node:test";
import { generate, run } from "../otbench.mjs";
import { reduced } from "../../common/reduce.mjs";
import { valuesOf, withOneUnitEach, written } from "../../common/schedule.mjs";
import { cutAtMark } from "../../ports/sessions.mjs";
import { corpus, random } from "../../ports/testing.mjs";

const isUnusual = (schedule) => valuesOf(schedule).instructions.concat([{ edit: [valuesOf(schedule).start] }]).some(({ edit = [] }) => edit.some((it) => typeof it === "string" && /[^\x20-\x7e]/.test(it)));

test("the corpus: small sessions first, those about characters last", () => {
  const sessions = [...corpus()];
  const plain = sessions.findIndex(({ schedule }) => isUnusual(schedule));
  assert.ok(sessions.slice(plain).every(({ name, schedule }) => isUnusual(schedule) || /["\\]/.test(schedule) || name === ""));
  for (const those of [sessions.slice(0, plain), sessions.slice(plain)]) {
    const sizes = those.map(({ schedule }) => schedule.length);
    assert.deepEqual(sizes, sizes.toSorted((one, other) => one - other));
  }
});

test("a schedule's values and its text, with the names that comments give", () => {
  const text = '; client 1 is Bea\n;client  1\tis Ben B.\n; client 0 is "ann "\n; client 7 is nobody\n; a note\nclients 2\r\n\n\tpresent  1\nstart "a b"\nedit 0  [1, "c\\u0000", 2]\njoin 1\nread-server \n%%\n; client 0 is none\n';
  const values = valuesOf(text);
  assert.deepEqual([...values.names], ['"ann "', "Ben B."]);
  assert.equal(written(values), '; client 0 is "ann "\n; client 1 is Ben B.\nclients 2\npresent 1\nstart "a b"\nedit 0 [1,"c\\u0000",2]\njoin 1\nread-server\n');
  assert.equal(cutAtMark("clients 1\nread 0\n %%\t\r\n{}\n"), "clients 1\nread 0\n");
});

test("what breaks ports is in the sessions made at random, and each is performed whole", () => {
  const sessions = [...random({ sessions: 40 })].map(({ schedule }) => schedule);
  const values = sessions.map(valuesOf);
  const edits = values.flatMap(({ instructions }) => instructions.flatMap(({ edit }) => (edit ? [edit] : [])));
  const texts = edits.flat().filter((it) => typeof it === "string").join("");
  for (const schedule of sessions) assert.deepEqual([run(schedule).stopped, run(schedule).quiet], [null, true]);
  assert.ok(values.some(({ present, clients }) => present < clients));
  assert.ok(values.some(({ start }) => start === ""));
  assert.ok(edits.some((edit) => edit.length === 1 && edit[0] > 0));
  assert.ok(edits.some((edit) => edit.length > 4));
  assert.ok(/[\u{10000}-\u{10ffff}]/u.test(texts) && /\p{M}/u.test(texts));
});

/* The smallest sessions of which the last shows something; all of its instructions are needed. */
async function smallest(texts, shows, asked = []) {
  const { values, textOf } = withOneUnitEach(texts);
  const firstShown = async (candidates) => {
    let number = 0;
    for (const sessions of candidates) {
      asked.push(JSON.stringify(sessions));
      if (shows(sessions.at(-1), sessions)) return { number, sessions, needed: sessions.at(-1).instructions.length };
      number++;
    }
    return null;
  };
  return (await reduced(values, values.at(-1).instructions.length, firstShown, () => false)).map(textOf);
}

const has = ({ instructions }, word, client) => instructions.some((it) => it.word === word && it.client === client);

test("reducing to what is needed, nothing twice", async () => {
  const rows = [
    [3, (it) => has(it, "take", 0), "clients 1\nedit 0 []\ntake 0\n"],
    [2, (it) => has(it, "deliver", 1), "clients 2\nedit 0 []\ntake 0\ndeliver 1\n"],
    [3, (it) => has(it, "join", 2), "clients 3\npresent 2\njoin 2\n"],
    [3, (it) => it.clients === 3, "clients 3\n"],
    [3, (it) => it.start.length > 1, 'clients 1\nstart "aa"\n'],
    [3, (it) => it.instructions.some(({ edit }) => edit?.some((part) => String(part).includes("x"))), 'clients 1\nedit 0 ["x"]\n'],
  ];
  for (const [clients, shows, small] of rows) {
    const schedules = [...Array(20).keys()].map((seed) => generate({ seed, clients, instructions: 60 }));
    const asked = [];
    assert.deepEqual(await smallest([schedules.find((schedule) => shows(valuesOf(schedule)))], shows, asked), [small]);
    assert.equal(new Set(asked).size, asked.length);
  }
});

test("a long session is gone through once, and an insertion behind a deletion stays there", async () => {
  const asked = [];
  const [small] = await smallest([generate({ seed: 1, clients: 3, instructions: 400 })], ({ instructions }) => instructions.length > 120, asked);
  assert.equal(valuesOf(small).instructions.length, 121);
  assert.ok(asked.length < 250, String(asked.length));
  const isReplacement = (edit) => edit.some((it, at) => it < 0 && typeof edit[at + 1] === "string");
  const text = 'clients 1\nstart "ab"\nedit 0 [1,"x",1]\nedit 0 [1,-1,"yz",1]\n';
  assert.deepEqual(await smallest([text], ({ instructions }) => instructions.some(({ edit }) => isReplacement(edit ?? []))), ['clients 1\nstart "aa"\nedit 0 [1,-1,"a"]\n']);
});

const edits = (count) => `clients 1\n${"edit 0 []\n".repeat(count)}`;

test("of the sessions before the last those that are needed stay", async () => {
  const shows = (last, all) => last.instructions.length > 0 && all.slice(0, -1).filter(({ instructions }) => instructions.length >= 3).length >= 2;
  assert.deepEqual(await smallest([1, 4, 0, 5, 2, 7, 1, 1].map(edits), shows), [3, 3, 1].map(edits));
  assert.deepEqual(await smallest([1, 4, 0, 5].map(edits), ({ instructions }) => instructions.length > 2), [edits(3)]);
});

test("names go with their clients", async () => {
  const text = '; client 0 is ann\n; client 1 is ben\n; client 2 is cleo\nclients 3\nedit 1 ["x"]\nedit 2 ["y"]\ntake 2\n';
  const shows = ({ instructions }) => instructions.some(({ edit }) => edit?.includes("y"));
  assert.deepEqual(await smallest([text], shows), ['; client 0 is cleo\nclients 1\nedit 0 ["y"]\n']);
});
