// The picture without a browser: what it draws, and how it refuses words and input.

import assert from "node:assert/strict";
import { spawnSync } from "node:child_process";
import fs from "node:fs";
import { test } from "node:test";
import { fileURLToPath } from "node:url";
import { example, linesOf } from "./sessions.mjs";

const program = fileURLToPath(new URL("../picture.mjs", import.meta.url));
const lines = linesOf(example("weak-order")).join("\n");
const call = (words, input = lines) => spawnSync("node", [program, ...words], { input, encoding: "utf8" });

test("docs/session.svg is drawn", () => {
  const { status, stdout, stderr } = call(["--at", "7"]);
  assert.deepEqual([status, stderr], [0, ""]);
  assert.equal(stdout, fs.readFileSync(new URL("../../docs/session.svg", import.meta.url), "utf8"));
});

test("words that are not understood are answered by the usage, with status 2, and help is on the output", () => {
  const { status: done, stdout: help, stderr: nothing } = call(["--help"]);
  assert.deepEqual([done, nothing], [0, ""]);
  assert.match(help, /^usage: node viewer\/picture\.mjs /);
  const rows = [
    [["--at", "x"], "picture: --at takes a number, not 'x'\n"],
    [["--at", ""], "picture: --at takes a number, not ''\n"],
    [["--at", "99"], /^picture: --at takes 0 to \d+ in this session, not 99\n$/],
    [["--light"], /^picture: Unknown option '--light'.*\n$/],
    [["session.jsonl"], /^picture: Unexpected argument 'session.jsonl'.*\n$/],
  ];
  for (const [words, fault] of rows) {
    const { status, stdout, stderr } = call(words);
    assert.deepEqual([status, stdout], [2, ""], words.join(" "));
    const [, said] = /^usage: node viewer\/picture\.mjs .*\n.*\n([^]*)$/.exec(stderr);
    if (fault instanceof RegExp) assert.match(said, fault);
    else assert.equal(said, fault);
  }
});

test("an input that is none of the lines is named in a line, with status 1", () => {
  const rows = [
    [example("weak-order"), /^picture: line 1 is no line of otbench steps: .*\n$/],
    ["", /^picture: there are no lines\n$/],
  ];
  for (const [input, fault] of rows) {
    const { status, stdout, stderr } = call([], input);
    assert.deepEqual([status, stdout], [1, ""]);
    assert.match(stderr, fault);
  }
});

test("an output that cannot be written is named in a line", { skip: !fs.existsSync("/dev/full") }, () => {
  const full = fs.openSync("/dev/full", "w");
  const { status, stderr } = spawnSync("node", [program], { input: lines, stdio: ["pipe", full, "pipe"], encoding: "utf8" });
  assert.equal(status, 1);
  assert.match(stderr, /^picture: ENOSPC.*\n$/);
  fs.closeSync(full);
});
