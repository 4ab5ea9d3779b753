// How the debugger is called, over the program that OTBENCH names.

import assert from "node:assert/strict";
import { spawnSync } from "node:child_process";
import { mkdtempSync, rmSync, writeFileSync } from "node:fs";
import { tmpdir } from "node:os";
import path from "node:path";
import { after, test } from "node:test";
import { ask, COMMAND, options, PROGRAM } from "./program.mjs";

const folder = mkdtempSync(path.join(tmpdir(), "debugger-call-"));
after(() => rmSync(folder, { recursive: true }));

const SCHEDULE = 'clients 1\nedit 0 ["a"]\nread 0\n';
const write = (name, text) => writeFileSync(path.join(folder, name), text);

function call(words, input = "") {
  const { status, stdout, stderr } = spawnSync(process.execPath, [COMMAND, "debug", ...words], { input, cwd: folder, encoding: "utf8", env: { ...process.env, OTBENCH: PROGRAM } });
  return [status, stdout, stderr];
}

test("a second file that has a port's lines is read as with --port", options, () => {
  write("s.ots", SCHEDULE);
  write("port.jsonl", `\n ${ask(["steps", "--documents"], SCHEDULE).output.replace('"document":"a"', '"document":"b"')}`);
  const beside = call(["s.ots", "--port", "port.jsonl"], "run\n");
  assert.match(beside[1], /\ndiffers at 1: edit 0: client 0 document\n/);
  assert.deepEqual(call(["s.ots", "port.jsonl"], "run\n"), beside);
  write("some.jsonl", '{"at":2,"document":"b"}\n');
  assert.match(call(["s.ots", "some.jsonl", "--sparse"], "run\n")[1], /\ndiffers at 2: read 0: client 0 document\n/);
});

test("a second file of commands is the program's, and a third, or one beside --port, is refused", options, () => {
  write("s.ots", SCHEDULE);
  write("commands", "step 1\nwhere\n");
  write("port.jsonl", '{"at":1}\n');
  assert.deepEqual(call(["s.ots", "commands"]), [0, "at 1: count\nat 1\n", ""]);
  assert.match(call(["s.ots", "commands", "--sparse"])[2], /^error: unexpected argument 'commands' found; the lines of a port stand behind '--port'\n/);
  for (const words of [["s.ots", "port.jsonl", "--port", "other"], ["--port", "other", "s.ots", "port.jsonl"]]) {
    assert.match(call(words)[2], /^error: the lines of a port are named twice: '(port\.jsonl' and 'other|other' and 'port\.jsonl)'\n/);
  }
  assert.match(call(["s.ots", "--port", "port.jsonl", "--port", "port.jsonl"])[2], /^error: the argument '--port' cannot be used multiple times\n/);
  assert.equal(call(["s.ots", "nosuch"])[2], "otbench: nosuch: there is no such file\n");
  assert.equal(call(["s.ots", "."])[2], "otbench: .: is a folder\n");
});

test("a second file that is empty is that of a port that printed nothing, which is said", options, () => {
  write("s.ots", SCHEDULE);
  write("empty.jsonl", "");
  const told = call(["s.ots", "empty.jsonl"], "run\n");
  assert.deepEqual(told, call(["s.ots", "--port", "empty.jsonl"], "run\n"));
  assert.equal(told[0], 0);
  assert.match(told[1], /\nthe port's lines are empty: the port printed nothing\nthe port's first difference is at place 1, line 2: run stops there\n/);
  assert.match(call(["s.ots", "empty.jsonl", "--sparse"])[1], /\nthe port's lines are empty: the port printed nothing\n/);
});
