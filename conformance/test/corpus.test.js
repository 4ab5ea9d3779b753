/* The corpus: what each session is, and that it finds what COVERAGE.md says. */

import assert from "node:assert/strict";
import { spawnSync } from "node:child_process";
import fs from "node:fs";
import { test } from "node:test";
import { fileURLToPath } from "node:url";
import { makePort } from "../../oracle/otjs.js";
import { drive } from "../../oracle/scalars.js";
import { bugs, keptBy, leaks } from "../faults.js";
import { TOGETHER, coverage, page, readCorpus, smallFinder, storedCorpus } from "../finders.js";
import { comparable, faultyPort, firstDifference, stepsOf } from "../lines.js";
import { listing } from "../program.js";

const beside = (name) => fileURLToPath(new URL(`../${name}`, import.meta.url));

test("the lines of a session in the form of steps", () => {
  assert.deepEqual(stepsOf('clients 2\npresent 1\nstart "x"\nedit 0 [1,"é\\u0001"]\ntake 0\nread 0\njoin 1\n').split("\n"), [
    '{"at":0,"clients":2,"present":1,"start":"x"}',
    '{"at":1,"do":"edit","client":0,"edit":[1,"é\\u0001"],"revision":0,"state":"awaiting-confirm","outstanding":[1,"é\\u0001"],"sent":{"revision":0,"operation":[1,"é\\u0001"]}}',
    '{"at":2,"do":"take","client":0,"revision":1,"appended":[1,"é\\u0001"]}',
    '{"at":3,"do":"read","client":0,"document":"xé\\u0001"}',
    '{"at":4,"do":"join","client":1,"revision":1,"state":"synchronized","document":"xé\\u0001"}',
    '{"at":4,"end":"not quiet"}',
    "",
  ]);
});

test("where a port parts from ot.js", () => {
  const session = comparable('clients 1\nedit 0 ["a"]\nedit 0 [1,"b"]\nedit 0 [1,"c",1]\n');
  assert.equal(firstDifference(session, makePort()), null);
  assert.equal(firstDifference(session, faultyPort(bugs["buffer-replaced"])), 3);
});

test("a schedule in UTF-16 units", () => {
  const text = '; 😀\nclients 2\nstart "a😀"\n\nedit 0 [2,"\\ud835\\udcb3"]\n  edit 1 [1,-1]\nread 0\nedit 0 [3,"x"]\nedit 0 [1]\nedit 0 [4]\n';
  const given = '; 😀\nclients 2\nstart "a😀"\n\nedit 0 [3,"𝒳"]\nedit 1 [1,-2]\nread 0\nedit 0 [5,"x"]\nedit 0 [1]\nedit 0 [4]\n';
  assert.equal(comparable(text).given, given);
});

test("each session says what it tries, is never refused, is quiet, and ends with a read of everybody", () => {
  const corpus = readCorpus();
  assert.ok(corpus.length >= 60);
  for (const { name, text } of corpus) {
    const lines = drive(text, makePort()).map((line) => JSON.parse(line));
    assert.match(text, /^; .*[.]\nclients /, name);
    assert.ok(lines.every((line) => line.stopped === undefined), name);
    assert.equal(lines.at(-1).end, "quiet", name);
    const reads = lines.slice(0, -1).reverse().findIndex((line) => !line.do.startsWith("read"));
    assert.equal(reads, lines[0].clients + 1, name);
    assert.equal(new Set(lines.slice(-1 - reads, -1).map((line) => line.document)).size, 1, name);
  }
});

test("beside each stored session stand its lines", () => {
  for (const { name, text } of storedCorpus()) {
    assert.equal(fs.readFileSync(beside(`sessions/${name}.jsonl`), "utf8"), stepsOf(text), name);
  }
});

/* Of each fault that has one, its first small session in COVERAGE.md. */
const SMALL = new Map([...fs.readFileSync(beside("COVERAGE.md"), "utf8").matchAll(/^\| ([a-z0-9-]+) \|.*\| (\d+): (\d+) \|$/gm)].map(([, fault, stage, number]) => [fault, { stage: Number(stage), number: Number(number) }]));

let covered = null;
const coverageOnce = () => (covered ??= coverage((fault) => SMALL.get(fault)));

test("every fault is found, every session finds one, and COVERAGE.md says by which", () => {
  const found = coverageOnce();
  for (const { fault, sessions } of found.finders) assert.ok(sessions.length, fault);
  for (const { name, found: faults } of found.corpus) assert.ok(faults, name);
  assert.equal(fs.readFileSync(beside("COVERAGE.md"), "utf8"), page(found));
});

const PROGRAM = process.env.OTBENCH ?? [`${beside("../crates/otbench/out/otbench")}`, `${beside("../out/otbench")}`].find((file) => fs.existsSync(file));

test("every fault of a rule shows in a small session, nothing reduced: in the one that COVERAGE.md says", { skip: PROGRAM === undefined && "the program is not built, and OTBENCH names none" }, () => {
  assert.ok(SMALL.size >= 55, String(SMALL.size));
  const firstOf = smallFinder(listing(PROGRAM));
  for (const [fault, small] of SMALL) assert.deepEqual(firstOf(fault), small, fault);
  const others = Object.keys(bugs).filter((fault) => !SMALL.has(fault));
  for (const fault of others) assert.match(fault, /text|line-end|mark-in-front|length|log-|points|components|message|buffer-up-to|clients-up-to|transforms-kept/);
});

test("each fault stands in the table of FOUND.md or below it", () => {
  const text = fs.readFileSync(beside("FOUND.md"), "utf8");
  const table = [...text.matchAll(/^\| [0-9.]+ \| [0-9. to]+ \| ([a-z0-9-, ]+) \|$/gm)].flatMap(([, names]) => names.split(", "));
  const missed = [...text.matchAll(/with [0-9]+ of [0-9]+ seeds: ([a-z0-9, -]+)/g)].flatMap(([, names]) => names.split(", "));
  const names = Object.keys(bugs).filter((name) => !Object.hasOwn(leaks, name));
  assert.deepEqual(table.toSorted(), names.filter((name) => table.includes(name)).toSorted());
  assert.deepEqual(new Set([...table, ...missed]), new Set(names));
  for (const name of Object.keys(leaks)) assert.ok(text.slice(text.indexOf("Not tried")).includes(name));
});

/* Each kind of session beside the branches of ot.js, and the faults that nothing else finds. */
const KINDS = {
  "characters-byte-order-mark-in-front": ["documents-without-a-mark-in-front"],
  "characters-joiners": ["texts-without-joiners"],
  "characters-line-end-of-two": ["line-ends-changed"],
  "characters-normal-forms": ["texts-normalized"],
  "characters-of-markup": [
    ..."texts-escaped texts-unescaped texts-as-replacements texts-with-other-blanks".split(" "),
    ..."texts-with-straight-quotes texts-without-blanks-in-front".split(" "),
  ],
  "characters-paragraph-separator": ["texts-with-one-line-end"],
  "characters-rarely-used": ["texts-end-at-nul", "texts-without-noncharacters", "texts-without-spaces-of-no-width"],
  "characters-past-the-plane-": ["insert-counts-code-points"],
  "client-buffer-of-": ["buffer-up-to-32-edits", "buffer-up-to-200-edits"],
  "compose-deletions-at-the-end": ["compose-first-deletes-at-the-end"],
  "with-34-clients": ["clients-up-to-32"],
  "lengths-": ["message-read-in-pieces"],
  "log-above-": ["log-cut-at-40", "log-cut-at-100", "log-cut-at-1000", "log-cut-at-1024", "log-cut-at-3000"],
  "one-place-equal-texts": ["equal-texts-once"],
  "operations-of-many-components": ["components-up-to-1000"],
  "texts-above-100000": ["lengths-up-to-100000"],
  "texts-like-lengths": ["transforms-kept-by-text", "transforms-kept-by-words"],
  "texts-like-numbers": ["text-0-is-empty", "text-minus-1-is-a-deletion"],
  "texts-like-words-of-objects": ["texts-like-words-of-objects"],
  [TOGETHER]: ["log-shared"],
};

test("each kind of session has a fault that passes the rest of the corpus", () => {
  const found = new Map(coverageOnce().finders.map(({ fault, sessions }) => [fault, sessions.map(({ name }) => name)]));
  for (const [kind, faults] of Object.entries(KINDS))
    for (const fault of faults) {
      assert.ok(found.get(fault).length, fault);
      assert.ok(found.get(fault).every((name) => name.startsWith(kind)), fault);
    }
  assert.deepEqual(found.get("buffer-up-to-200-edits"), ["client-buffer-of-260-edits"]);
  assert.deepEqual(found.get("log-cut-at-3000"), ["log-above-3000"]);
  assert.deepEqual(found.get("message-read-in-pieces"), ["lengths-of-messages"]);
  assert.deepEqual(found.get("log-cut-at-1000"), ["log-above-1000", "log-above-3000"]);
});

test("transforms kept by their components are found, whatever joins these", () => {
  const session = comparable(fs.readFileSync(beside("sessions/texts-like-lengths.ots"), "utf8"));
  for (const separator of [..." ,|;:/-\t\n", "", ", "])
    assert.notEqual(firstDifference(session, faultyPort(keptBy(separator))), null, JSON.stringify(separator));
});

test("a fault of another file on the driver's command line", () => {
  const session = { input: fs.readFileSync(beside("sessions/compose-insert-of-the-second.ots")), encoding: "utf8" };
  const words = ["--faults", beside("faults.js"), "--bug"];
  const call = (bug) => spawnSync("node", [beside("../examples/port/driver.js"), ...words, bug], session);
  assert.deepEqual(JSON.parse(call("compose-second-inserts").stdout.split("\n")[3]).buffer, [-1, 1, "t", 2]);
  assert.match(call("none").stderr, /^driver: no such bug; there are tie, .*, transform-first-inserts, /);
});
