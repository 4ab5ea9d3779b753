// The four front ends of the debugger, given the same commands. The command `debug FILE`, otbench/debug and the page's line print the same. The program's own
// `debug`, given the commands that it has, stops at the same places for the same reasons, and shows the same. All are over the engine.
// DEBUG_SCRIPTS says how many generated scripts, DEBUG_SEED the seed of the first session.

import assert from "node:assert/strict";
import fs from "node:fs";
import os from "node:os";
import path from "node:path";
import { PassThrough } from "node:stream";
import { text as wholeText } from "node:stream/consumers";
import { after, test } from "node:test";
import { visible } from "../../common/visible.mjs";
import { bugs } from "../../examples/port/bugs.js";
import { chance } from "../../recorder/test/live_session.js";
import { debug } from "../../terminal/debugging.mjs";
import { Commanded } from "../../viewer/src/commanded.mjs";
import { portLinesOf } from "../../viewer/test/sessions.mjs";
import { outlineOf } from "../../common/outline.mjs";
import { bytesOf, textOf } from "../../common/text.mjs";
import { serve } from "../../engine/host.mjs";
import { openDebugger } from "../debug.mjs";
import { engine } from "../engine.mjs";

const SCRIPTS = Number(process.env.DEBUG_SCRIPTS || 300);
const SEED = Number(process.env.DEBUG_SEED || 1);
const OF_A_SESSION = 6; // scripts
const COMMANDS = 14; // of a script

const skip = fs.existsSync(new URL("../../engine/out/otbench.wasm", import.meta.url)) ? false : "the engine is not built";

const folder = fs.mkdtempSync(path.join(os.tmpdir(), "otbench-debuggers-"));
after(() => fs.rmSync(folder, { recursive: true }));

/** What all of them ask: the engine. */
function ask(words, text) {
  const { status, output, errors } = serve(engine(), words, bytesOf(text, "the text"));
  return { status, output: textOf(output), errors: textOf(errors) };
}

/** A session by a seed, of which a late line may be refused: its text, and what a port with a fault prints of it. */
function sessionBy(seed, random) {
  const clients = 1 + random(4);
  const words = ["generate", "--seed", String(seed), "--clients", String(clients), "--instructions", String(random(30)), ...(random(3) ? ["--open"] : [])];
  const { output } = ask(words, "");
  const text = random(4) ? output : `${output}ack 0\n`;
  const all = portLinesOf(text, Object.values(bugs)[random(Object.keys(bugs).length)]);
  const isSparse = random(2) === 0;
  const port = isSparse ? all.filter(() => random(3) === 0) : all;
  return { clients, end: openDebugger(text).end, text, port, isSparse };
}

/** A command of the program's `debug`. A break may be at a place behind a refused instruction, where nothing stops. */
function commonCommand({ clients, text }, random) {
  const place = random(outlineOf(text).lines.length + 2);
  const all = ["run", "run", "run", "step 1", `step ${1 + random(6)}`, `back ${1 + random(6)}`, `break ${place}`, `break ${place}`, `clear ${place}`, `watch doc ${random(clients)}`, `watch state ${random(clients)}`, "watch server", "unwatch", "where", "show"];
  return all[random(all.length)];
}

/** A command that the program's `debug` has not, or has with other words; some are wrong. Those of files are left out: each front end has its own. */
function anyCommand({ clients, end }, random) {
  const oneOf = (list) => list[random(list.length)];
  const place = () => random(end + 2);
  const client = () => random(clients + (random(5) ? 0 : 1));
  const member = () => (random(4) ? client() : "server");
  const value = () => oneOf(["doc 0", `doc ${member()}`, `state ${client()}`, `outstanding ${client()}`, `buffer ${client()}`, "server"]);
  const word = () => oneOf(["edit", "take", "deliver", "ack", "join", "read-server", "deliv"]);
  const condition = () => oneOf([`doc ${client()} contains "a"`, `not doc 0 contains b`, `state ${client()} is synchronized`, "server is 2"]);
  const moves = ["step", `step ${random(6)}`, `back ${random(6)}`, "next", `next ${1 + random(3)}`, "rnext", `goto ${place()}`, "goto end", "goto here", "run", "rrun", "undo", `until ${word()} ${client()}`, `runtil ${word()}`, `find ${oneOf(["a", '"b"', "zz"])}`, "rfind a", `find port ${oneOf(["a", "zz"])}`, "rfind port a"];
  const stops = [`break ${place()}`, `break line ${place()}`, `break ${word()} ${client()}`, `break ${word()} if ${condition()}`, `break if ${condition()} time ${random(3)}`, `watch ${value()}`, `display ${value()}`, `delete ${1 + random(4)}`, "info", "clear", `clear ${place()}`, "unwatch", "mark here"];
  const looks = ["where", "show", `show ${member()}`, "list", `list ${place()} ${place()}`, `print ${value()}`, `print link ${client()}`, `print message ${client()}`, "print difference", `print instruction ${place()}`, "explain", `explain ${place()}`, "why", `why ${place()}`, "verdict", `who ${member()} ${random(6)}`, `blame ${member()}`, `diff ${place()} ${place()}`, `diff ${place()} ${place()} ${member()}`, `diff doc ${member()} ${member()}`, `info ${oneOf(["outstanding", "buffer", "message", "b", "doc"])} ${member()}`, "mark"];
  const others = ["", "s", "r", "bl 0", "help", `help ${word()}`, "help who", "constructor", "step x", "step 1 2", "find", "who 0"];
  return oneOf(oneOf([moves, moves, moves, stops, stops, looks, looks, others]));
}

const printed = (lines) => lines.map((line) => `${line}\n`).join("");

/** What the command prints. */
async function atTerminal({ text, port, isSparse }, script) {
  const file = path.join(folder, "session.ots");
  fs.writeFileSync(file, port === null ? text : `${text}%%\n${printed(port)}`);
  const output = new PassThrough();
  const all = wholeText(output);
  const status = await debug([file, ...(isSparse ? ["--sparse"] : [])], ask, new PassThrough().end(printed(script)), output);
  output.end();
  assert.equal(status, 0);
  return visible(await all);
}

/** What the page's line answers: to nothing, and to each command. */
function inPage({ text, port, isSparse }, script) {
  const commanded = new Commanded(ask);
  let place = 0;
  return [null, ...script].map((line) => {
    const answer = commanded.perform({ text, port, isSparse, place }, line);
    place = answer.place;
    return answer;
  });
}

/** What the package's methods return, as lines. */
function inPackage({ text, port, isSparse }, script) {
  const session = openDebugger(text, port === null ? {} : { port: printed(port), sparse: isSparse });
  return visible(printed(script.flatMap((line) => session.perform(line))));
}

/** A line of `show` as the program prints it. */
const asProgram = (line) => line.replace(/^(client \d+) not-joined$/, '$1 rev 0 not-joined ""').replace(/^((?:not )?quiet).*/, "$1");

/** The program's reply to `run` that answers the same as this. */
function replyOf(said, watches, place) {
  const watched = watches.findIndex((title) => said.some((line) => line.startsWith(`${title}: `) || line.startsWith(`${title} at `)));
  if (watched >= 0) return `at ${place}: watch ${watched}`;
  if (said.includes(`break at place ${place}`)) return `at ${place}: break`;
  if (said.some((line) => line.startsWith("the end: line"))) return `at ${place}: refused ${/^  refused: (\w+)/m.exec(said.join("\n"))[1]}`;
  return said.some((line) => line.startsWith("the end: ")) ? `at ${place}: end` : `at ${place}`;
}

const titleOf = (command) => command.replace(/^watch (?:(\w+) (\d+)|server)$/, (_, what, client) => (what ? `client ${client} ${what}` : "the server's revision"));

/** Compares the answers with the program's replies, command by command; answers how many commands moved. */
function compareWithProgram({ clients, text }, script, answers, where) {
  const replies = ask(["debug"], `${text}%%\n${printed(script)}`).output.split("\n");
  const watches = [];
  let moves = 0;
  for (const [i, command] of script.entries()) {
    const { said, place } = answers[i + 1];
    const told = `${where}, command ${i}: ${command}: ${said.join(" / ")}`;
    if (command === "show") {
      assert.deepEqual(replies.splice(0, clients + 2), said.filter((line) => !line.startsWith(" ")).map(asProgram), told);
      continue;
    }
    if (command.startsWith("watch")) watches.push(titleOf(command));
    if (command === "unwatch") watches.length = 0;
    const reply = replies.shift();
    if (!reply.startsWith("at ")) assert.equal(reply, /^there was no break| is no place: /.test(said[0]) ? "no such place" : "ok", told);
    else {
      const isCounted = reply === `at ${place}: count` || command === "where";
      assert.equal(reply, isCounted ? `at ${place}${command === "where" ? "" : ": count"}` : replyOf(said, command === "run" ? watches : [], place), told);
      moves++;
    }
  }
  assert.deepEqual(replies, [""], where);
  return moves;
}

/** Compares the front ends over one script. */
async function compare(session, script, where) {
  const answers = inPage(session, script);
  const [greeting, ...all] = answers.map(({ said }) => printed(said));
  assert.equal(await atTerminal(session, script), greeting + all.join(""), where);
  assert.equal(inPackage(session, script), all.join(""), where);
  return answers;
}

test(`${SCRIPTS} generated scripts: command, package and page print the same, and the program's debug does the same`, { skip }, async () => {
  let [moves, performed] = [0, 0];
  for (let seed = SEED; performed < SCRIPTS; seed++) {
    const random = chance(seed);
    const session = sessionBy(seed, random);
    for (let k = 0; k < OF_A_SESSION && performed < SCRIPTS; k++, performed++) {
      const where = `seed ${seed}, script ${k}`;
      const isCommon = k % 2 === 0;
      const script = Array.from({ length: COMMANDS }, () => (isCommon ? commonCommand : anyCommand)(session, random));
      if (isCommon) moves += compareWithProgram(session, script, await compare({ ...session, port: null, isSparse: false }, script, where), where);
      else await compare({ ...session, text: `; client 0 is "A\\u202eb"\n${session.text}`, port: k === 1 ? session.port : null, isSparse: k === 1 && session.isSparse }, script, where);
    }
  }
  assert.ok(moves > SCRIPTS, "commands that move");
});
