// The drivers of otbench port: processes, how long they may take, and the line that says why they failed.

import assert from "node:assert/strict";
import { spawnSync } from "node:child_process";
import { test } from "node:test";
import { nearest } from "../../common/nearest.mjs";
import { crowd, Pace } from "../../ports/pace.mjs";
import { eachInOne, keptFor } from "../../ports/processes.mjs";
import { telling } from "../../ports/telling.mjs";

const sh = (script) => ["sh", "-c", script];
const told = ({ lines, trouble, isEnded }) => [lines.toString(), trouble, isEnded];

test("a process for each session: what it printed, and how it ended", async () => {
  const rows = [
    [["cat"], "clients 1\n", undefined],
    [["echo", "1"], "1\n", undefined],
    [sh("cat; echo at the end >&2; exit 1"), "clients 1\n", "the driver ended with status 1: at the end"],
    [sh("cat >/dev/null; echo 2; kill -SEGV $$"), "2\n", "the driver was ended by signal SIGSEGV"],
    [["/nosuch/driver"], "", "the driver cannot be run: spawn /nosuch/driver ENOENT"],
  ];
  for (const [command, lines, trouble] of rows) assert.deepEqual(told(await eachInOne(command, 1000).perform("clients 1\n")), [lines, trouble, false]);
});

test("one that prints without end, and one that is ended by a signal", async () => {
  const { lines, ...yes } = await eachInOne(["yes"], 100_000).perform("clients 1\n");
  const how = "was ended: it printed more than 100,000 bytes";
  assert.deepEqual([lines.toString().slice(0, 4), yes], ["y\ny\n", { how, trouble: `the driver ${how}`, isEnded: true, isSlow: false }]);
  for (const script of ["echo 3; sleep 300", "exec >&- 2>&-; sleep 300"]) {
    const end = new AbortController();
    setTimeout(() => end.abort("took more than 1 s"), 1000);
    const { trouble, isEnded, isSlow } = await eachInOne(sh(script), 1000).perform("clients 1\n", { signal: end.signal });
    assert.deepEqual([trouble, isEnded, isSlow], ["the driver was ended: it took more than 1 s", true, true]);
  }
});

/* Answers each session with its number and the last line of its text; $1 says what it does at a line `join`. */
const KEPT = `n=0; while read -r line; do case $line in
%%) n=$((n + 1)); echo "$n $last"; echo %%;;
*join*) eval "$1";;
esac; last=$line; done`;

const kept = (does = "", mostBytes = 1000) => keptFor(["sh", "-c", KEPT, "sh", does], mostBytes);

test("a driver that uses its time, or waits, is not starved", { skip: process.platform !== "linux" && "the system does not tell it" }, async () => {
  for (const script of ["while :; do :; done", "exec sleep 60"]) {
    const driver = eachInOne(sh(script), 1000);
    const end = new AbortController();
    const performed = driver.perform("clients 1\n", { signal: end.signal });
    let isStarved = true;
    for (let tries = 0; isStarved && tries < 200; tries++) {
      await new Promise((resolve) => setTimeout(resolve, 50));
      isStarved = driver.isStarved(100);
    }
    assert.equal(isStarved, false, script);
    if (!script.startsWith("exec")) assert.ok(driver.isStarved(1_000_000), "of a million milliseconds it had less than half");
    end.abort("was ended");
    await performed;
  }
});

test("several sessions in one process", async () => {
  const driver = kept();
  const rows = [["clients 1\n", "1 clients 1\n"], ["clients 1\nread 0\n", "2 read 0\n"], ["x\n".repeat(100_000), "3 x\n"], ["", "4 %%\n"]];
  for (const [text, lines] of rows) assert.deepEqual(told(await driver.perform(text)), [lines, undefined, false]);
  assert.equal(await driver.close(60), null);
  assert.equal(await driver.close(60), null);
});

test("a process that ends is followed by another one", async () => {
  const rows = [
    ["echo gone >&2; exit 7", "the driver ended with status 7: gone"],
    ["exit 0", "the driver ended before the line %%"],
    ["kill -SEGV $$", "the driver was ended by signal SIGSEGV"],
  ];
  for (const [does, trouble] of rows) {
    const driver = kept(does);
    const said = [];
    for (const text of ["clients 1\n", "join 0\n", "clients 2\n"]) said.push(told(await driver.perform(text)));
    assert.deepEqual(said, [["1 clients 1\n", undefined, false], ["", trouble, false], ["1 clients 2\n", undefined, false]]);
    await driver.close(60);
  }
});

test("a mark that is none: a line that ends with %%", async () => {
  const driver = keptFor(sh("read -r a; read -r b; printf 'x%%%%\\n'; printf '%%%%\\r\\n'; read -r c"), 1000);
  assert.deepEqual(told(await driver.perform("clients 1\n")), ["x%%\n", undefined, false]);
  await driver.close(60);
});

test("how a kept process ends", async () => {
  for (const [does, trouble] of [["exit 0", null], ["exit 3", "the driver ended with status 3 behind its last session"], ["sleep 300", "the driver was ended: it took more than 1 s behind its last session"]]) {
    const driver = keptFor(sh(`read -r a; read -r b; echo %%; read -r c; ${does}`), 1000);
    assert.deepEqual(told(await driver.perform("clients 1\n")), ["", undefined, false]);
    assert.equal(await driver.close(1), trouble);
  }
});

const [PLAIN, LONG] = [100, 8193];

function paced(seconds, busy, ...those) {
  const pace = new Pace(seconds, () => busy);
  for (const [size, took] of those) pace.add(size, took);
  return pace;
}

test("the most that a session may take", () => {
  const rows = [
    [[], 10_000, 10_000], // nothing is known: the driver may be slow to start
    [[[PLAIN, 100]], 5000, 10_000],
    [[[LONG, 100]], 5000, 10_000],
    [[[PLAIN, 2000], [PLAIN, 1000]], 6000, 10_000],
    [[[PLAIN, 2000], [LONG, 4000]], 6000, 12_000],
    [[[PLAIN, 100], [LONG, 60_000]], 5000, 180_000],
  ];
  for (const [those, plain, large] of rows) {
    const pace = paced(5, 1, ...those);
    assert.deepEqual([PLAIN, 8192, LONG].map((size) => pace.most(size)), [plain, plain, large]);
  }
});

test("a busy machine gives more", () => {
  assert.equal(paced(5, 3).most(PLAIN), 30_000);
  assert.equal(paced(5, 3, [PLAIN, 100]).most(PLAIN), 15_000);
  assert.ok(crowd() >= 1);
});

test("when a session may hang", () => {
  const rows = [
    [[], 10_000, 10_000],
    [[[LONG, 100]], 5000, 5000],
    [[[PLAIN, 100]], 600, 1100],
    [[[PLAIN, 1000], [PLAIN, 1200]], 1800, 2200], // a driver that takes long to start
    [[[PLAIN, 200], [PLAIN, 1200]], 4200, 4200], // a busy machine
    [[[PLAIN, 200], [PLAIN, 3000]], 9000, 9000],
  ];
  for (const [those, found, suspect] of rows) {
    const pace = paced(5, 1, ...those);
    assert.deepEqual([pace.found(PLAIN), pace.suspect(PLAIN)], [found, suspect]);
    assert.equal(pace.found(LONG), pace.most(LONG));
  }
});

test("the line of standard error that says why", () => {
  const rows = [
    ["", ""],
    ["gone\n", "gone"],
    ["a line\n  a stack\n\n", "a line"],
    ["\n  indented\r\n", "indented"],
    ["TypeError: a\nat the end\n", "TypeError: a"],
    ["TypeError: a\nmy.pkg.BadException: b\n", "my.pkg.BadException: b"],
    ["Boom [Error]: b\n    at f (x.js:1:2)\n\nNode.js v22.1.0\n", "Boom [Error]: b"],
    ["throwError(1)\n^\ngone\n\nNode.js v20.20.2\n", "gone"],
    ['Exception in thread "main" java.lang.Error: a\n\tat E.main(E.java:1)\nCaused by: b: c\n\t... 1 more\n', "Caused by: b: c"],
    ["thread 'main' panicked at p.rs:1:54:\nindex out of bounds\nnote: run with `RUST_BACKTRACE=1`\n", "index out of bounds"],
    ["\nthread 'main' (17) panicked at p.rs:1:54:\nindex out of bounds\nstack backtrace:\n   0: __rustc::rust_begin_unwind\n             at /rustc/p.rs:1:5\nnote: Some details are omitted\n", "index out of bounds"],
    ["thread 'main' panicked at 'gone', p.rs:1:54\nstack backtrace:\n   0: std::panicking::begin_panic\n", "thread 'main' panicked at 'gone', p.rs:1:54"],
    ["Node.js v20.20.2\n", "Node.js v20.20.2"],
  ];
  for (const [errors, line] of rows) assert.equal(telling(errors), line, errors);
});

test("the line that node says", () => {
  const rows = [
    ["x", "ReferenceError: x is not defined"],
    ["require('./none')", "Error: Cannot find module './none'"],
    ["let = = 3", "SyntaxError: Unexpected token '='"],
    ["throw new Error('two\\nlines')", "Error: two"],
    ["require('assert').equal(1, 2)", "AssertionError [ERR_ASSERTION]: 1 == 2"],
    ["throw 'gone'", "gone"],
  ];
  for (const [script, line] of rows) assert.equal(telling(spawnSync(process.execPath, ["--input-type=commonjs", "-e", script], { encoding: "utf8" }).stderr), line, script);
});

test("the word that is most like another one", () => {
  const words = ["document", "sent", "state", "start"];
  assert.deepEqual(["documnet", "documents", "sen", "stat", "why", ""].map((word) => nearest(word, words)[0] ?? null), ["document", "document", "sent", "state", null, null]);
});
