// The debugger in the page: its commands are those of the terminal, and its place is the page's. npm/test/debuggers.test.mjs compares all front ends by generated scripts.

import assert from "node:assert/strict";
import { spawnSync } from "node:child_process";
import fs from "node:fs";
import os from "node:os";
import path from "node:path";
import { test } from "node:test";
import { fileURLToPath } from "node:url";
import { bugs } from "../../examples/port/bugs.js";
import { visible } from "../../common/visible.mjs";
import { Bench } from "../src/bench.mjs";
import { shownPlace } from "../src/state.mjs";
import { DirectEngine, program, skip } from "./engines.mjs";
import { HOSTILE } from "./hostile.mjs";
import { example, portLinesOf } from "./sessions.mjs";

const command = fileURLToPath(new URL("../../command/cli.mjs", import.meta.url));

/* What the terminal's debugger prints of a session and commands. */
function printed(text, port, script, isSparse) {
  const folder = fs.mkdtempSync(path.join(os.tmpdir(), "otbench-commanded-"));
  try {
    const file = path.join(folder, "session.ots");
    fs.writeFileSync(file, port === null ? text : `${text}%%\n${port.map((line) => `${line}\n`).join("")}`);
    const words = [command, "debug", ...(isSparse ? ["--sparse"] : []), file];
    const { stdout } = spawnSync(process.execPath, words, { input: script.map((line) => `${line}\n`).join(""), encoding: "utf8", env: { ...process.env, OTBENCH: program }, maxBuffer: 1 << 28 });
    return visible(stdout);
  } finally {
    fs.rmSync(folder, { recursive: true });
  }
}

async function benchOf(text, port = null) {
  const bench = new Bench(
    () => {},
    async () => {},
  );
  bench.use(new DirectEngine());
  bench.dispatch({ do: "open", text, port });
  await bench.settled();
  return bench;
}

/* The same of the page. */
async function shownOf(text, port, script, isSparse = false) {
  const bench = await benchOf(text, port);
  if (isSparse) bench.takeAsSparse(port);
  const said = [];
  for (const line of [null, ...script]) said.push(...(await bench.command(line)).said);
  return said.map((line) => `${line}\n`).join("");
}

const SCRIPT = ["help", "step", "", "next 2", "break take 1 if doc 0 contains \"a\"", "watch doc 1", "display state 0", "run", "run", "why", "rrun", "who 0 0", "who server 9", "blame 1", "find a", "rfind a", "find port a", "rfind port c", "info buffer 0", "info outstanding 1", "info message 0", "diff 0 end", "diff 0 7", "diff doc 0 1",
  "mark here", "goto here", "goto 3", "undo", "where", "verdict", "list", "list 0 3", "show", "show server", "print doc 0", "print link 1", "print difference", "explain", "explain 2", "until take", "runtil edit 0", "back 2", "rnext", "info", "delete 2",
  "clear", "unwatch", "constructor", "help __proto__", "step x", "goto 99", "break line", "s", "b", "goto end", "run", "print instruction 1"];

const SESSIONS = [
  ["weak-order", example("weak-order"), null, false],
  ["names", `; client 0 is Ann\n; client 1 is "b\\u202e"\n${example("late-join")}`, null, false],
  ["a port with a fault", example("weak-order"), portLinesOf(example("weak-order"), bugs.tie), false],
  ["some lines of a port", example("weak-order"), ['{"at":12,"document":"caz"}'], true],
  ["a refused instruction", "clients 2\nedit 0 [\"a\"]\nack 0\nedit 1 [\"b\"]\n", null, false],
];

for (const [name, text, port, isSparse] of SESSIONS)
  test(`a script of commands prints what it does at the terminal: ${name}`, { skip }, async () => {
    assert.equal(await shownOf(text, port, SCRIPT, isSparse), printed(text, port, SCRIPT, isSparse));
  });

test("a command moves the page, and a move of the page the debugger", { skip }, async () => {
  const bench = await benchOf(example("weak-order"));
  const place = () => shownPlace(bench.state);
  await bench.command("step 3");
  assert.equal(place(), 3);
  bench.dispatch({ do: "go", place: 7 });
  assert.match((await bench.command("where")).said[0], /^behind line \d+, instruction 6: deliver 0$/);
  assert.equal(place(), 7);
  await bench.command("undo");
  assert.equal(place(), 3, "it goes back from the page's move, too");
  await bench.command("find z");
  bench.dispatch({ do: "go", place: 0 });
  assert.match((await bench.command("back")).said[0], /^before /);
  assert.equal(place(), 0);
  const late = await benchOf(example("weak-order"));
  late.dispatch({ do: "go", place: 5 });
  assert.deepEqual((await late.command("undo")).said, ["no move to undo"]);
  assert.equal(shownPlace(late.state), 5);
});

test("in a session that was changed the breaks, watches and marks stay as far as they are there", { skip }, async () => {
  const bench = await benchOf("clients 2\nedit 0 [\"a\"]\ntake 0\ndeliver 1\n");
  for (const line of ["break take 0", "break 3", "watch doc 1", "mark all"]) await bench.command(line);
  bench.dispatch({ do: "go", place: 3 });
  bench.dispatch({ do: "takeOut" });
  await bench.settled();
  await bench.completions("in");
  const { said, place } = await bench.command("info");
  assert.match(said[0], /^no break 3 any more: 3 is no place: they are 0 to 2/);
  assert.match(said[1], /^1 break take 0  \(at 1 place/);
  assert.equal(said[2], "2 watch doc 1");
  assert.equal(place, 2);
  bench.dispatch({ do: "undo" });
  await bench.command("goto 0");
  assert.match((await bench.command("run")).said.at(-1), /^break at place 2: take 0/);
  assert.equal(shownPlace(bench.state), 2);
});

test("in a session that was cut before the place the place is its end", { skip }, async () => {
  const bench = await benchOf("clients 2\nedit 0 [\"a\"]\ntake 0\ndeliver 1\n");
  await bench.command("goto end");
  bench.dispatch({ do: "write", text: "clients 2\nedit 0 [\"a\"]\n", line: 1 });
  await bench.settled();
  assert.match((await bench.command("where")).said[0], /^b\w+ line 2, instruction 0: edit 0$/);
  assert.equal(shownPlace(bench.state), 1);
});

test("files are saved by the page, and none is read", { skip }, async () => {
  const bench = await benchOf("clients 2\nedit 0 [\"a\"]\ntake 0\n");
  await bench.command("break 1");
  const saved = await bench.command("save breaks");
  assert.deepEqual(saved.files, [{ name: "breaks", text: "break 1\n" }]);
  await bench.command("goto 1");
  const [part, whole] = [await bench.command("export part.ots"), await bench.command("export whole.ots complete")];
  assert.deepEqual(part.files, [{ name: "part.ots", text: "clients 2\nedit 0 [\"a\"]\n" }]);
  assert.match(whole.files[0].text, /^clients 2\nedit 0 \["a"\]\ntake 0\n(deliver 1\nack 0|ack 0\ndeliver 1)\n$/);
  assert.match((await bench.command("source /etc/passwd")).said[0], /^a page does not read \/etc\/passwd; its lines can be pasted here; source FILE$/);
  assert.deepEqual((await bench.command("edit")).said, ["a person edits the schedule in the page"]);
  assert.equal((await bench.command("quit")).isOver, true);
  assert.equal((await bench.command("where")).isOver, false);
});

test("of a text with a fault no command is performed", { skip }, async () => {
  const bench = await benchOf("clients 2\nedit 0 [\"a\"]\n");
  await bench.command("step");
  bench.dispatch({ do: "write", text: "clients 2\nedti 0\n", line: 1 });
  await assert.rejects(bench.command("step"), /the text has a fault: mend it first/);
  assert.deepEqual(await bench.completions("st"), []);
  bench.dispatch({ do: "undo" });
  await bench.settled();
  assert.deepEqual(await bench.completions("st"), ["step"]);
  assert.deepEqual(await bench.completions("watch "), ["doc", "state", "outstanding", "buffer", "server"]);
});

test("hostile words are answered as words", { skip }, async () => {
  const bench = await benchOf("clients 1\nedit 0 [\"a\"]\n", ['{"at":1,"__proto__":{},"document":3}', "<b>"]);
  for (const value of HOSTILE)
    for (const front of ["", "find ", "find port ", "info ", "info buffer ", "goto ", "help ", "mark ", "break ", "who 0 "]) {
      const line = `${front}${typeof value === "string" ? value : JSON.stringify(value)}`;
      const { said } = await bench.command(line);
      assert.ok(said.every((line) => typeof line === "string" && !/[\u202e\u0007]|\[object|undefined|native code/.test(line)), front);
      await bench.completions(line);
    }
});
