// The debugger's answers, over the native program that OTBENCH names, or the repository's. The values are worked by hand from examples/weak-order.ots.

import assert from "node:assert/strict";
import { existsSync, mkdtempSync, readFileSync, rmSync, writeFileSync } from "node:fs";
import { tmpdir } from "node:os";
import path from "node:path";
import test from "node:test";
import { colouring } from "../colours.mjs";
import { COMMANDS, commandOf, wordsIn } from "../commands.mjs";
import { conditionOf, holdingOf } from "../conditions.mjs";
import { named, seen } from "../names.mjs";
import { Debugger } from "../debugger.mjs";
import { files } from "../filing.mjs";
import { nearest as nearestOf } from "../../common/nearest.mjs";
import { Recording, RefusedText } from "../recording.mjs";
import { ask, options } from "./program.mjs";

const WEAK = readFileSync(new URL("../../examples/weak-order.ots", import.meta.url), "utf8");

/** The answers to these lines, of a new session. */
function answers(lines, schedule = WEAK, port = null) {
  const session = new Debugger(new Recording(ask, schedule, port), { files });
  return lines.map((line) => session.perform(line).join("\n"));
}

const nearest = (word) => nearestOf(word, Object.keys(COMMANDS));

test("first letters name a command, and an unknown word is answered with the nearest ones", () => {
  assert.deepEqual(["s", "st", "n", "b", "ba", "r", "rr", "u", "l", "sh", "e", "g", "w", "q"].map((word) => commandOf(word).name), ["step", "step", "next", "back", "back", "run", "rrun", "until", "list", "show", "explain", "goto", "watch", "quit"]);
  assert.equal(commandOf("stpe").fault, "there is no stpe; nearest: step, save");
  assert.equal(commandOf("wach").fault, "there is no wach; nearest: watch");
  assert.equal(commandOf("backwards").fault, "there is no backwards; nearest: back");
  assert.deepEqual(["oto", "qit", "hlep", "unitl", "steps"].map((word) => nearest(word)[0]), ["goto", "quit", "help", "until", "step"]);
  assert.deepEqual(["c", "co", "cont", "continue", "cl", "clear"].map((word) => commandOf(word).name), ["continue", "continue", "continue", "continue", "clear", "clear"]);
  for (const word of ["foo", "bar", "rat"]) assert.equal(commandOf(word).fault, `there is no ${word}; help lists all words`);
  assert.deepEqual(nearest("x"), []);
});

test("the words of a line: a JSON string and an operation are one each; of a line of any words they are found soon", () => {
  const rows = { ' a\t"b c"d ': ["a", '"b c"', "d"], 'edit 0 [1,"a ] b",-2] x': ["edit", "0", '[1,"a ] b",-2]', "x"], '"a\\" b" c': ['"a\\" b"', "c"], '"a b': ['"a', "b"], '[1, 2]': ["[1,", "2]"], "[1]x": ["[1]x"], '["a b': ['["a b'], "": [] };
  for (const [line, words] of Object.entries(rows)) assert.deepEqual(wordsIn(line), words, line);
  const began = performance.now();
  wordsIn(`find ${'["\\" '.repeat(40_000)}`);
  assert.ok(performance.now() - began < 10_000);
});

test("a line of too many characters is complained of", options, () => {
  assert.deepEqual(answers([`find "${"a".repeat(20_000_000)}"`, "where"]).map((it) => it.split("\n")[0]), ["the line has more than 1,000,000 characters", 'the opening: 2 of 2 clients joined, every document is "x"']);
});

test("step and back say where they led, and stop at the ends", options, () => {
  const [one, back, further, end] = answers(["step", "back", "b 5", "step 99"]);
  assert.equal(one, 'behind line 5, instruction 0: edit 0\n  client 0 at revision 0 awaits the confirmation of [1,"z"]; its document is "xz"');
  assert.equal(back, "before line 5, instruction 0: edit 0");
  assert.equal(further, "before line 5, instruction 0: edit 0");
  assert.equal(end, 'behind line 20, instruction 15: read-server\n  the server\'s document is "acz"\nthe end: quiet');
});

test("a step in a session without an instruction says that it is the end", options, () => {
  assert.match(answers(["step"], "clients 1\n")[0], /^the opening: .*\nthe end: quiet$/);
  assert.match(answers(["step"], "clients 1\nack 0\n")[0], /^the opening: .*\nthe end: line 2, instruction 0: ack 0 is refused\n  refused: LinkEmpty: /);
  assert.doesNotMatch(answers(["back"], "clients 1\n")[0], /the end/);
});

test("an empty line repeats the last command", options, () => {
  const session = new Debugger(new Recording(ask, WEAK));
  session.perform("step");
  session.perform("");
  assert.equal(session.prompt, "(2/16) ");
});

test("next goes to the same client's next instruction", options, () => {
  const [, , next] = answers(["step 3", "step", "next"]);
  assert.equal(next.split("\n")[0], "behind line 9, instruction 4: take 1");
});

test("a watch stops forth behind the change, and back before it, with both values", options, () => {
  const [, there, , back] = answers(["watch doc 1", "run", "goto end", "rrun"]);
  assert.equal(there.split("\n").at(-1), 'client 1 doc: "x" -> "cx"');
  assert.equal(there.split("\n")[0], "behind line 8, instruction 3: edit 1");
  assert.deepEqual(back.split("\n"), ["before line 16, instruction 11: deliver 1", 'client 1 doc: "cxz" -> "acz"']);
});

test("where says it again, and unwatch removes the watches alone", options, () => {
  const [opening, , moved, where, , , , info] = answers(["where", "watch doc 0", "step", "where", "watch server", "break 3", "unwatch", "info"]);
  assert.match(opening, /^the opening: /);
  assert.equal(where, moved);
  assert.match(info, /^3 break 3 [^\n]*$/);
});

test("each thing that can be watched", options, () => {
  const change = (...lines) => answers(lines).at(-1).split("\n").at(-1);
  assert.equal(change("watch state 0", "run"), "client 0 state: synchronized -> awaiting-confirm");
  assert.equal(change("watch outstanding 0", "goto 1", "run"), 'client 0 outstanding: [1,"z"] -> [2,"z"]');
  assert.equal(change("watch buffer 0", "run"), 'client 0 buffer: none -> [1,"a",1]');
  assert.equal(change("watch server", "run"), "the server's revision: 0 -> 1");
});

test("breaks at a place and at a line", options, () => {
  const [place, line, first, second, listed, cleared] = answers(["break 7", "break line 9", "run", "run", "break", "clear 7"]);
  assert.equal(place, "break at place 7");
  assert.equal(line, "break at place 5");
  assert.equal(first.split("\n").at(-1), "break at place 5");
  assert.equal(second.split("\n").at(-1), "break at place 7");
  assert.equal(listed, "1 break 7  (at 1 place, 1 of them up to here)\n2 break 5  (at 1 place, 1 of them up to here)");
  assert.equal(cleared, "no break at place 7 any more");
});

test("a break may be at a place behind a refused instruction, where nothing stops", options, () => {
  const schedule = "clients 1\nread 0\ntake 0\nread 0\nread 0\n";
  const [place, end, listed, cleared, beyond] = answers(["break 4", "run", "break", "clear 4", "break 5"], schedule);
  assert.equal(place, "break at place 4, which is not reached");
  assert.match(end, /\nthe end: line 3, instruction 1: take 0 is refused\n/);
  assert.equal(listed, "1 break 4  (at 0 places, 0 of them up to here)");
  assert.equal(cleared, "no break at place 4 any more");
  assert.match(beyond, /^5 is no place: they are 0 to 4/);
});

test("until goes behind the next instruction with these words", options, () => {
  const [found, none] = answers(["until ack 1", "until join"]);
  assert.equal(found.split("\n")[0], "behind line 14, instruction 9: ack 1");
  assert.equal(none, "no further instruction begins with join");
});

test("show has documents, states, pending operations and links", options, () => {
  const [, shown, one, server] = answers(["goto 6", "show", "show 1", "show server"]);
  assert.deepEqual(shown.split("\n"), [
    'client 0 rev 0 awaiting-with-buffer "az"',
    '  outstanding [1,"z"]',
    '  buffer ["a",-1,1]',
    '  from the server: ["c",1], ack',
    'client 1 rev 0 awaiting-confirm "cx"',
    '  outstanding ["c",1]',
    '  from the server: ack, [2,"z"]',
    'server rev 2 "cxz"',
    "not quiet: client 0 is awaiting-with-buffer; 1 more client is not quiet",
  ]);
  assert.equal(one.split("\n")[0], 'client 1 rev 0 awaiting-confirm "cx"');
  assert.equal(server.split("\n")[0], 'server rev 2 "cxz"');
});

test("list marks the last instruction and the next one", options, () => {
  const [, listed] = answers(["goto 7", "list"]);
  assert.deepEqual(listed.split("\n").slice(3, 5), ["->  6  line 11: deliver 0", " >  7  line 12: ack 0"]);
});

test("list shows the operation of an edit, a long one cut, and of a refused one none", options, () => {
  const [listed] = answers(["list"], `clients 1\nedit 0 ["a"]\nedit 0 [1,${JSON.stringify("typed ".repeat(40))}]\nread 0\nedit 0 [9]\n`);
  const [first, long, read, refused] = listed.split("\n").map((line) => line.replace(/^.*?line /, ""));
  assert.deepEqual([first, read, refused], ['2: edit 0 ["a"]', "4: read 0", "5: edit 0  (refused)"]);
  assert.equal(long, '3: edit 0 [1,"typed typed typed typed ".."typed typed typed typed " (240 characters)]');
});

test("the place where a port differs is a break, with conform's answer", options, () => {
  const port = ask(["steps"], WEAK).output.replace('"buffer":["a",1,-1,1],"applied"', '"buffer":["a",-1,1],"applied"');
  const [stopped] = answers(["run"], WEAK, port);
  assert.equal(stopped.split("\n")[0], "behind line 11, instruction 6: deliver 0");
  assert.equal(stopped.split("\n")[2], "differs at 7: deliver 0: client 0 buffer");
});

test("at a terminal the first line of a difference is red, with the client's name in it", options, () => {
  const port = ask(["steps"], WEAK).output.replace('"buffer":["a",1,-1,1],"applied"', '"buffer":["a",-1,1],"applied"');
  const session = new Debugger(new Recording(ask, `; client 0 is ann\n${WEAK}`, port));
  assert.equal(session.difference, "differs at 7: deliver 0: client 0 (ann) buffer");
  assert.ok(session.perform("run").includes(session.difference));
  assert.equal(new Debugger(new Recording(ask, WEAK)).difference, null);
  const { NO_COLOR, TERM, ...others } = process.env;
  process.env = others;
  const colour = colouring({ isTTY: true });
  process.env = { ...others, ...(NO_COLOR && { NO_COLOR }), ...(TERM && { TERM }) };
  assert.deepEqual([colour("x", true), colour("x"), colour("the port's first difference is at place 7")], ["\x1b[31mx\x1b[0m", "x", "\x1b[31mthe port's first difference is at place 7\x1b[0m"]);
});

test("back from the end, rrun stops before the instruction in which the port differs, which explain tells", options, () => {
  const port = ask(["steps"], WEAK).output.replace('"buffer":["a",1,-1,1],"applied"', '"buffer":["a",-1,1],"applied"');
  const [, back, told, opening] = answers(["goto end", "rrun", "explain", "rrun"], WEAK, port);
  assert.equal(back.split("\n")[0], "before line 11, instruction 6: deliver 0");
  assert.equal(back.split("\n")[1], "differs at 7: deliver 0: client 0 buffer");
  assert.equal(told.split("\n")[0], "line 11, instruction 6: deliver 0");
  assert.equal(opening, "before line 5, instruction 0: edit 0");
  const refused = 'clients 1\nedit 0 ["a"]\ntake 0\ntake 0\n';
  const [ahead, end, behind] = answers(["run", "run", "rrun"], refused, '{"at":1}\n{"at":2}\n{"at":3}\n');
  assert.deepEqual(ahead.split("\n").slice(-3), ["differs at 2: take 0: stopped", "found performed", "ot.js LinkEmpty"]);
  assert.match(end, /^the end: line 4, instruction 2: take 0 is refused\n/);
  assert.equal(behind, "before line 2, instruction 0: edit 0");
});

test("the greeting says at which place and line a port differs, and of the first place how", options, () => {
  const greeting = (schedule, port) => new Debugger(new Recording(ask, schedule, port)).greeting().slice(1, -1);
  const port = ask(["steps"], WEAK).output.replace('"buffer":["a",1,-1,1],"applied"', '"buffer":["a",-1,1],"applied"');
  assert.deepEqual(greeting(WEAK, port), ["the port's first difference is at place 7, line 11: run stops there"]);
  assert.deepEqual(greeting("clients 1\n", '{"at":0,"clients":2}\n'), ["the port's first difference is at place 0", "differs at 0: opening: clients", "found 2", "ot.js 1"]);
  const twice = 'clients 1\nedit 0 ["a"]\n; again\ntake 0\ntake 0\n';
  assert.deepEqual(greeting(twice, '{"at":1}\n{"at":2}\n{"at":3}\n'), ["the port's first difference is at place 2, line 5: run stops there"]);
});

test("where a port's server differs, the end is told all the same", options, () => {
  const port = ask(["steps"], WEAK).output.replace('"do":"read-server","document":"acz"', '"do":"read-server","document":"caz"');
  const [end, server] = answers(["step 99", "show server"], WEAK, port);
  assert.equal(end.split("\n").at(-1), "the end: quiet");
  assert.equal(server, 'server rev 3 "acz"\n  port: document "caz", ot.js "acz"\nquiet');
});

test("values of a port that look like ot.js' are told apart by code points", options, () => {
  const [stopped] = answers(["run"], 'clients 1\nedit 0 ["\u00e9"]\n', '{"at":1,"edit":["e\u0301"]}\n');
  assert.deepEqual(stopped.split("\n").slice(4, 7), ['found ["e\u0301"]', 'ot.js ["\u00e9"]', "points U+0065 U+0301 U+0022 U+005D | U+00E9 U+0022 U+005D"]);
});

test("of many given values the first and the last are shown, and print has all", options, () => {
  const edits = Array.from({ length: 20 }, (_, i) => `edit 0 [${i ? `${i},` : ""}"x"]\ntake 0\nack 0\n`);
  const schedule = `clients 2\nedit 1 ["y"]\n${edits.join("")}take 1\n`;
  const port = ask(["steps"], schedule).output.replace('"appended":["y",20]', '"appended":[20,"y"]');
  const [stopped, all] = answers(["run", "print difference"], schedule, port);
  const given = (said) => said.split("\n").filter((line) => line.startsWith("given concurrent"));
  assert.deepEqual(given(stopped), ['given concurrent ["x"]', 'given concurrent [19,"x"]']);
  assert.match(stopped, /\n\.\. 18 more; print difference shows all\n/);
  assert.equal(given(all).length, 20);
});

test("a difference ahead of many lines, which the program does not read, is found", options, () => {
  const port = `{"at":1,"client":1}\n${'{"at":1}\n'.repeat(500_000)}`;
  assert.match(answers(["run"], WEAK, port)[0], /\ndiffers at 1: edit 0: client\nfound 1\not\.js 0/);
});

test("a port that conforms is said to, and one whose lines have no value to show nothing", options, () => {
  const greeting = (port) => new Debugger(new Recording(ask, "clients 1\nread 0\n", port)).greeting().slice(1, -1);
  for (const line of ['{"at":1}\n', '{"at":1,"client":0}\n'])
    assert.deepEqual(greeting(line), ["the port's lines have no value that can be compared"]);
  assert.deepEqual(greeting('{"at":1,"client":0,"revision":0}\n'), ["the port conforms"]);
  assert.deepEqual(greeting('{"at":1,"document":"","docment":""}\n'), ["the port conforms", "unknown docment in line 4"]);
  assert.ok(greeting(`{"at":1,"document":"","${"k".repeat(100_000)}":""}\n`)[1].length < 100);
  assert.deepEqual(greeting(null), []);
});

test("of a port's lines for some instructions it is said where they end", options, () => {
  const greeting = (port, schedule = WEAK) => new Debugger(new Recording(ask, schedule, port, true)).greeting().slice(1, -1);
  const told = "lines end at place 12, before line 17, instruction 12: ack 0; nothing is compared from there on";
  const seven = '{"at":7,"revision":1}\n';
  for (const behind of ["", "\n \t\r\n"]) assert.deepEqual(greeting(`${seven}{"at":12,"document":"acz"}\n${behind}`), [`the port conforms; its ${told}`]);
  for (const last of ['{"at":16,"document":"acz"}', '{"at":16,"end":"quiet"}']) assert.deepEqual(greeting(`${seven}${last}\n`), ["the port conforms"], last);
  assert.deepEqual(greeting('{"at":16,"end":"quiet"}\n'), ["the port conforms"]);
  assert.deepEqual(greeting('{"at":0,"clients":2}\n'), ["the port conforms; its lines end at place 0, before line 5, instruction 0: edit 0; nothing is compared from there on"]);
  assert.deepEqual(greeting(`${seven}{"at":12,"document":"caz"}\n`), ["the port's first difference is at place 12, line 16: run stops there"]);
  assert.deepEqual(greeting('{"at":7}\n'), ["the port's lines have no value that can be compared"]);
  const cut = `${WEAK}; cut: "ann, event 9"\n`;
  assert.deepEqual(greeting('{"at":12,"document":"acz"}\n', cut), ["the schedule ends before its logs: ann, event 9", `the port's ${told}`]);
});

test("a port's lines end early where it does not say what it did with a refused instruction", options, () => {
  const greeting = (port) => new Debugger(new Recording(ask, 'clients 1\nedit 0 ["a"]\ntake 0\ntake 0\nread 0\n', port, true)).greeting().slice(1, -1);
  const two = '{"at":2,"revision":1}\n';
  assert.deepEqual(greeting(two), ["the port conforms; its lines end at place 2, before line 4, instruction 2: take 0; nothing is compared from there on"]);
  assert.deepEqual(greeting(`${two}{"at":2,"stopped":"LinkEmpty"}\n`), ["the port conforms"]);
});

test("a refused instruction ends the run with its reason", options, () => {
  const [ended] = answers(["run"], "clients 1\nedit 0 [\"a\"]\ntake 0\ntake 0\n");
  assert.equal(ended.split("\n").at(-2), "the end: line 4, instruction 2: take 0 is refused");
  assert.match(ended.split("\n").at(-1), /^ {2}refused: LinkEmpty: /);
});

test("a refused text is answered as explain answers it", options, () => {
  assert.throws(() => new Recording(ask, "clients 1\nedti 0 []\n"), (fault) => fault instanceof RefusedText && fault.message.startsWith("otbench: line 2: UnknownWord\n  line 2, column 1: found \"edti\"; wanted "));
});

test("of an end that is not quiet the first client is named, and how many more there are", options, () => {
  const ended = (clients) => answers(["run"], `clients ${clients}\nedit 0 ["a"]\ntake 0\nack 0\n`)[0].split("\n").at(-1);
  assert.equal(ended(1), "the end: quiet");
  assert.equal(ended(2), "the end: not quiet: 1 message is under way to client 1");
  assert.equal(ended(3), "the end: not quiet: 1 message is under way to client 1; 1 more client is not quiet");
  assert.equal(ended(4), "the end: not quiet: 1 message is under way to client 1; 2 more clients are not quiet");
});

test("bytes that are no UTF-8 are refused as the program refuses them, and of a port are a difference", options, () => {
  const bytes = Buffer.from('clients 1\nstart "\xff"\n', "latin1");
  assert.throws(() => new Recording(ask, bytes), (fault) => fault instanceof RefusedText && fault.message.startsWith("otbench: line 2: BadText\n"));
  assert.match(answers(["run"], "clients 1\nread 0\n", Buffer.from('{"at":1,"document":"\xff"}\n', "latin1"))[0], /\ndiffers at 1: read 0: line\n/);
});

test("words that do not fit are complained of, and the session goes on", options, () => {
  const [place, client, watch, number, more] = answers(["goto 17", "watch doc 2", "watch link 0", "step x", "goto 1 2"]);
  assert.match(place, /^17 is no place: they are 0 to 16; /);
  assert.match(client, /^2 is no client: they are 0 to 1; /);
  assert.match(watch, /^link is no value of a client: they are doc, state, outstanding, buffer; watch /);
  assert.match(number, /^x is no number; /);
  assert.match(more, /^2 is a word too many; goto /);
});

test("a client's name stands behind its number, and in no string", () => {
  const names = new Map([[1, "ben"], [12, "Ann B."], [3, "a\u202eb\u{e0001}"]]);
  assert.equal(named('client 1 takes client 12\'s operation ["client 1"], client 2', names), 'client 1 (ben) takes client 12 (Ann B.)\'s operation ["client 1"], client 2');
  assert.equal(named('found "{\\"a\\":\\"client 1"', names), 'found "{\\"a\\":\\"client 1"');
  assert.equal(named("client 3", names), 'client 3 ("a\\u202eb\\udb40\\udc01")');
  assert.equal(named("client 1 (ben) takes client 12's, client 12 (Ann)", names), "client 1 (ben) takes client 12 (Ann B.)'s, client 12 (Ann)");
  assert.deepEqual(["ben", "b\u00a0n", " b", '"b', "\x1b[2J", "\x9b"].map(seen), ["ben", "b\u00a0n", '" b"', '"\\"b"', '"\\u001b[2J"', '"\\u009b"']);
});

test("names of comments stand in every answer; without them the answers are the same bytes", options, () => {
  const schedule = `; client 0 is ann\n${WEAK}`;
  const [behind, shown, watched] = answers(["goto 7", "show 0", "watch doc 0"], schedule);
  assert.match(behind, /client 0 \(ann\) at revision 1 awaits/);
  assert.match(shown, /^client 0 \(ann\) rev 1 /);
  assert.equal(watched, "watching doc of client 0 (ann)");
  const port = ask(["steps"], WEAK).output.replace('"buffer":["a",1,-1,1],"applied"', '"buffer":["a",-1,1],"applied"');
  assert.match(answers(["run"], schedule, port)[0], /\ndiffers at 7: deliver 0: client 0 \(ann\) buffer\n/);
  const lines = ["run", "explain", "show", "rrun", "list"];
  assert.deepEqual(answers(lines, schedule).map((answer) => answer.replaceAll(" (ann)", "")), answers(lines, `; x\n${WEAK}`));
});

test("where the recorder's logs are cut stands above the first prompt", options, () => {
  const [opening, cut] = new Debugger(new Recording(ask, `${WEAK}; cut: "ann, event 9: deliver of operation 7"\n`)).greeting();
  assert.match(opening, /^the opening: /);
  assert.equal(cut, "the schedule ends before its logs: ann, event 9: deliver of operation 7");
});

test("what conform says of the cut is not said again where the port differs, and a port that conforms so far does not conform", options, () => {
  const cut = `${WEAK}; cut: "ann, event 9"\n`;
  const [, all] = answers(["goto 1", "print difference"], cut, '{"at":1,"document":"y"}\n');
  assert.match(all, /^differs at 1: edit 0: client 0 document\n/);
  assert.doesNotMatch(all, /the schedule ends/);
  const said = new Debugger(new Recording(ask, cut, ask(["steps"], cut).output)).greeting();
  assert.deepEqual(said.slice(1), ['the schedule ends before its logs: ann, event 9', "help lists the commands"]);
});

test("completion knows commands, what is watched, and clients", options, () => {
  const session = new Debugger(new Recording(ask, WEAK));
  assert.deepEqual(session.complete("w"), [["watch", "who", "where", "why"], "w"]);
  assert.deepEqual(session.complete("watch o"), [["outstanding"], "o"]);
  assert.deepEqual(session.complete("watch doc "), [["0", "1", "server"], ""]);
  assert.deepEqual(session.complete("constructor "), [[], ""]);
});

test("words that every object has are no commands", options, () => {
  for (const word of ["constructor", "toString", "__proto__", "valueOf", "hasOwnProperty"]) {
    const [said, helped, watched] = answers([word, `help ${word}`, `watch ${word} 0`]);
    assert.match(said, new RegExp(`^there is no ${word}; `));
    assert.match(helped, new RegExp(`^there is no ${word}; `));
    assert.match(watched, new RegExp(`^${word} is no value of a client: `));
  }
  assert.match(answers(["break line"])[0], /^the line's number is missing; break /);
});

test("the README has each command", () => {
  const table = readFileSync(new URL("../README.md", import.meta.url), "utf8").split("\n").filter((line) => line.startsWith("| `")).join("\n");
  for (const name of Object.keys(COMMANDS).filter((it) => it !== "help" && it !== "quit")) assert.match(table, new RegExp(`\`${name}\\b`), name);
});

test("a word too many is named", options, () => {
  const rows = ["run 5", "rrun 5", "next 4 x", "explain 1 x", "list 3 4 x", "find a x", "rfind a x", "find port a x", "info buffer 0 x", "goto 1 x", "step 1 x", "back 1 x", "clear 1 x", "show 0 x", "help step x", "quit x", "watch server x", "break 5 x", "break line 5 x", "info breaks x", "delete 1 x"];
  const said = answers(rows);
  rows.forEach((row, i) => assert.match(said[i], new RegExp(`^${row.split(" ").at(-1)} is a word too many; ${row.split(" ")[0]}[ :]`), row));
});

test("next N, list P Q and explain N mean something", options, () => {
  const [, , next, listed, told, none, back] = answers(["step 3", "step", "next 2", "list 3 5", "explain 6", "explain 99", "list 5 3"]);
  assert.equal(next.split("\n")[0], "behind line 14, instruction 9: ack 1");
  assert.deepEqual(listed.split("\n").map((line) => line.trim()), ['3  line 8: edit 1 ["c",1]', "4  line 9: take 1"]);
  assert.equal(told.split("\n")[0], "line 11, instruction 6: deliver 0");
  assert.match(none, /^99 is no instruction: they are 0 to 15; /);
  assert.match(back, /^5 is behind 3; /);
});

/* A document of 1,080 characters, in which client 0 inserts at 500. */
const PANGRAM = "The quick brown fox jumps. ".repeat(40);
const LONG = `clients 2\nstart ${JSON.stringify(PANGRAM)}\nedit 0 [500,"X",580]\nedit 0 [490,-4,587]\ntake 0\n`;

test("of a long value the change and what stands around it are shown", options, () => {
  const [, inserted, deleted, , shown, whole, server] = answers(["watch doc 0", "run", "run", "watch doc server", "show 0", "print doc 0", "print doc server"], LONG);
  assert.equal(inserted.split("\n").at(-1), 'client 0 doc at 500: + "X" in .."e quick brow"|"n fox jumps."..');
  assert.equal(deleted.split("\n").at(-1), 'client 0 doc at 490: - "quic" in .." jumps. The "|"k browXn fox"..');
  assert.ok(shown.split("\n").every((line) => line.length < 160), shown);
  assert.match(shown, /^client 0 rev 0 awaiting-with-buffer "The quick brown fox jump"\.\.".*" \(1,077 characters\)\n/);
  assert.equal(JSON.parse(whole).length, 1077);
  assert.equal(server, JSON.stringify(PANGRAM));
});

test("of a port's long value what stands around the difference is shown", options, () => {
  const port = ask(["steps", "--documents"], LONG).output.replace("fox jumps. The quick browXn", "fox jumps. The quick bbowXn");
  const [stopped] = answers(["run"], LONG, port);
  const [, found, ours] = /\nfound (.*)\not\.js (.*)\n/.exec(stopped);
  assert.match(found, /^\.\..*bbowXn.*\.\.$/);
  assert.match(ours, /^\.\..*browXn.*\.\.$/);
  assert.ok(stopped.split("\n").every((line) => line.length < 160), stopped);
});

test("what is shown of 64 clients and full links is short, and print has all", options, () => {
  const edits = Array.from({ length: 40 }, (_, i) => `edit 0 [${JSON.stringify("typed ".repeat(20))}${i ? `,${120 * i}` : ""}]\ntake 0\nack 0\n`);
  const [, shown, one, link] = answers(["goto end", "show", "show 63", "print link 63"], `clients 64\n${edits.join("")}`);
  assert.ok(shown.length < 6000, String(shown.length));
  assert.equal(shown.split("\n").length, 64 + 3);
  assert.match(one, /\n {2}from the server: 40 messages, first \["typed typed typed typed "\.\./);
  assert.equal(link.split("\n").length, 40);
  assert.deepEqual(JSON.parse(link.split("\n")[0]), ["typed ".repeat(20)]);
});

test("of a long word that was typed both ends are shown", options, () => {
  const word = "x".repeat(100_000);
  const said = answers([word, `goto ${word}`, `break ${word}`, "info", `mark ${word}`, `mark ${word} ${word}`, `until ${word}`, `find "${word}"`, `why ${word}`, `source ${word}`]);
  for (const line of said.flatMap((answer) => answer.split("\n"))) assert.ok(line.length < 500, line.slice(0, 100));
  assert.equal(said[0], `there is no ${"x".repeat(24)}..${"x".repeat(24)} (100,000 characters); help lists all words`);
});

test("print has all that can be watched", options, () => {
  assert.deepEqual(answers(["goto 3", "print state 0", "print outstanding 0", "print buffer 0", "print doc 0", "print server", "print doc server"]).slice(1), ["awaiting-with-buffer", '[1,"z"]', '["a",-1,1]', '"az"', "0", '"x"']);
});

test("a complaint is the reason, and then in few words what the command takes", options, () => {
  const said = answers(["goto 17", "run 5", "print link 9", "next 0", "rnext 0", "mark end", "export /nosuch/x", "watch server", "display server"]);
  assert.deepEqual(said.slice(0, 8), [
    "17 is no place: they are 0 to 16; goto P|end|NAME",
    "5 is a word too many; run takes no word",
    "9 is no client: they are 0 to 1; print: help print says what it takes",
    "a number from 1 is wanted; next [N|difference]",
    "a number from 1 is wanted; rnext [N|difference]",
    "end is the last place already: goto end goes there; mark [NAME]",
    "/nosuch/x: there is no folder /nosuch; export FILE [complete]",
    "watching the server's revision",
  ]);
  assert.match(said[8], /^displaying the server's revision\n/);
});

test("what is watched already is not watched twice", options, () => {
  const [, again, stopped] = answers(["watch doc 1", "watch doc 1", "run"]);
  assert.equal(again, "already watching doc of client 1");
  assert.equal(stopped.split("\n").filter((line) => line.startsWith("client 1 doc")).length, 1);
});

test("a break behind the first words of an instruction, with a condition and a count", options, () => {
  const [words, first, second, back] = answers(["break deliver", "run", "run", "rrun"]);
  assert.equal(words, "break deliver: at 3 places, from 7 to 12");
  assert.deepEqual([first, second].map((said) => said.split("\n").at(-1)), ["break at place 7: deliver", "break at place 11: deliver"]);
  assert.equal(back.split("\n").at(-1), "break at place 7: deliver");
  assert.equal(answers(["break deliver 1 time 2", "run"])[1].split("\n").at(-1), "break at place 12: deliver 1 time 2");
  assert.equal(answers(["break take 1 time 2"])[0], "break take 1 time 2: it stops nowhere");
  assert.equal(answers(['break deliver if not doc 0 contains "a"'])[0], 'break deliver if not doc 0 contains "a": it stops nowhere');
  assert.equal(answers(["break deliver 1 if doc 1 is acz"])[0], "break deliver 1 if doc 1 is acz: at place 12");
});

test("a break and until at the edits of a client with an operation, as list shows it", options, () => {
  assert.equal(answers(['break edit 0 [1,"z"]'])[0], 'break edit 0 [1,"z"]: at place 1');
  assert.equal(answers(['break edit 1 [1,"z"]'])[0], 'break edit 1 [1,"z"]: it stops nowhere');
  const schedule = 'clients 2\nstart "a b"\nedit 1 [3]\nedit 1 [1,"  x",2]\nedit 1 [1,-1,4]\n';
  const [set, stopped, , gone, back] = answers(['break edit 1 [1,"  x",2] if doc 1 contains "x"', "run", "goto 0", "until edit 1 [1,-1,4]", 'runtil edit 1 [1,"  x",2]'], schedule);
  assert.equal(set, 'break edit 1 [1,"  x",2] if doc 1 contains "x": at place 2');
  assert.equal(stopped.split("\n").at(-1), 'break at place 2: edit 1 [1,"  x",2] if doc 1 contains "x"');
  assert.match(gone, /^behind line 5, instruction 2: edit 1\n/);
  assert.match(back, /^before line 4, instruction 1: edit 1/);
});

test("a JSON string in a condition is the word that it has, whatever the value is", options, () => {
  const places = (condition) => answers([`break if ${condition}`])[0].replace(/^.*: /, "");
  for (const [word, string, at] of [["state 0 is awaiting-with-buffer", 'state 0 is "awaiting-with-buffer"', "at place 2"], ['outstanding 0 is [2,"z"]', 'outstanding 0 is "[2,\\"z\\"]"', "at place 7"], ["server is 2", 'server is "2"', "at place 6"]])
    assert.deepEqual([places(word), places(string)], [at, at], word);
});

test("c goes on as run does, and undo brings back what clear, delete and unwatch removed", options, () => {
  const [, , stopped, run] = answers(["break 7", "watch doc 1", "c", "continue"]);
  assert.match(stopped, /^behind line 8, instruction 3: edit 1\n/);
  assert.match(run, /\nbreak at place 7$/);
  const said = answers(["break 7", "watch doc 1", "break deliver", "clear", "info", "break 7", "undo", "delete 2", "undo", "unwatch", "undo", "clear 7", "undo", "undo", "clear", "goto 3", "undo", "where", "undo"]);
  const all = ["7  (at 1 place, 0 of them up to here)", "deliver  (at 3 places, 0 of them up to here)"];
  assert.equal(said[3], "no breaks, no watches; undo brings back the 3");
  assert.equal(said[4], "no breaks, no watches");
  assert.equal(said[6], `2 watch doc 1\n3 break ${all[1]}\n4 break ${all[0]}`);
  for (const i of [8, 10, 12]) assert.equal(said[i], said[6], String(i));
  assert.equal(said[13], "no move to undo");
  assert.match(said[16], /^before line 5, /);
  assert.equal(said[18], said[6]);
});

test("list marks the last instruction performed at the place behind a way back, too", options, () => {
  const marks = (lines) => answers([...lines, "list 0 16"]).at(-1).split("\n").map((line) => line.slice(0, 6).trim()).filter((line) => /^(->|>)/.test(line)).join();
  assert.equal(marks(["goto 7", "goto 6"]), "->  5,>  6");
  assert.equal(marks(["goto 7", "back 7"]), ">  0");
  assert.equal(marks(["goto end"]), "-> 15");
});

test("a break where a condition begins to hold", options, () => {
  const [begins, stopped, , state, not] = answers(['break if doc 0 contains "c"', "run", "clear", "break if state 0 is awaiting-with-buffer", 'break edit if not doc server is "x"']);
  assert.equal(begins, 'break if doc 0 contains "c": at place 7');
  assert.equal(stopped.split("\n").at(-1), 'break at place 7: if doc 0 contains "c"');
  assert.equal(state, "break if state 0 is awaiting-with-buffer: at place 2");
  assert.equal(not, 'break edit if not doc server is "x": it stops nowhere');
});

test("a client that has not joined has no document that a condition could be of", options, () => {
  const schedule = "clients 2\npresent 1\nread 0\njoin 1\n";
  assert.equal(answers(['break read if doc 1 contains "n"'], schedule)[0], 'break read if doc 1 contains "n": it stops nowhere');
  assert.equal(answers(['break read if not doc 1 contains "n"'], schedule)[0], 'break read if not doc 1 contains "n": at place 1');
});

test("a value changes only where the instruction may change it, and a condition holds where its value says so", options, () => {
  for (const seed of [1, 2]) {
    const recording = new Recording(ask, ask(["generate", "--seed", String(seed), "--clients", "3", "--present", "2", "--instructions", "200"], "").output);
    const places = Array.from({ length: recording.end }, (_, i) => i + 1);
    const ofClients = ["doc", "state", "outstanding", "buffer"].flatMap((what) => [0, 1, 2].map((client) => ({ what, client })));
    for (const subject of [...ofClients, { what: "doc", client: null }, { what: "server", client: null }]) {
      const changes = places.filter((p) => recording.value(subject, p - 1) !== recording.value(subject, p));
      assert.deepEqual(changes.filter((p) => !recording.mayChange(subject, p)), []);
    }
    const holding = holdingOf(recording, conditionOf(["doc", "server", "contains", "e"], 3));
    assert.deepEqual(holding, [0, ...places].map((p) => recording.text(null, p).includes("e")));
  }
});

/* The places at which the program's own `debug` stands behind each of these commands: it performs what is proved of stepping. */
function provedPlaces(schedule, commands) {
  const { output } = ask(["debug"], `${schedule}%%\n${commands.map((command) => `${command}\nwhere\n`).join("")}`);
  return output.split("\n").filter((line) => /^at \d+$/.test(line)).map((line) => Number(line.slice(3)));
}

/* A command that the program and the debugger at a terminal both have, of a seeded choice. */
function commandOfBoth(choose, { clients, end }) {
  const client = choose(clients);
  const all = ["run", "run", "run", `step ${choose(9)}`, `back ${choose(30)}`, `break ${choose(end + 1)}`, `clear ${choose(end + 1)}`, `watch doc ${client}`, `watch state ${client}`, "watch server"];
  return all[choose(all.length)];
}

test("the debugger stands where the program's own does, over generated commands", options, () => {
  let state = 7;
  const choose = (n) => (state = (state * 48271) % 2147483647) % n;
  for (let seed = 1; seed <= 12; seed++) {
    const generated = ask(["generate", "--seed", String(seed), "--clients", "3", "--present", "2", "--instructions", "60", ...(seed % 2 ? ["--open"] : [])], "").output;
    const schedule = seed % 3 ? generated : `${generated}join 0\nread 0\n`;
    const recording = new Recording(ask, schedule);
    for (let script = 0; script < 25; script++) {
      const commands = Array.from({ length: 20 }, () => commandOfBoth(choose, recording));
      const session = new Debugger(recording);
      const places = commands.map((command) => session.perform(command) && session.place);
      assert.deepEqual(places, provedPlaces(schedule, commands), `seed ${seed}: ${commands.join("; ")}`);
    }
  }
});

test("conditions that are none are complained of", options, () => {
  const rows = [
    ["break take 1 if", "a condition is a value, contains or is, and a text"],
    ["break take 1 if doc 0", "a condition is a value, contains or is, and a text"],
    ["break take 1 if doc 9 is x", "9 is no client: they are 0 to 1"],
    ["break take 1 if doc 0 contains", "contains takes a text"],
    ["break take 1 if doc 0 contains a b", "b is a word too many"],
    ['break take 1 if doc 0 contains "\\x"', '"\\x" is no JSON string'],
    ["break take 1 if constructor 0 is x", "constructor is no value of a client: they are doc, state, outstanding, buffer"],
    ["break take 1 time 0", "time takes a number from 1"],
    ["break take 1 time 2 if doc 0 is x", "time N stands last, behind if CONDITION"],
    ["break time 2 if doc 0 is x", "time N stands last, behind if CONDITION"],
    ["break delver", "delver is no instruction; nearest: deliver"],
    ["break tie", "tie is no instruction: they are edit, take, deliver, ack, join, read, read-server"],
    ["break constructor", "constructor is no instruction: they are edit, take, deliver, ack, join, read, read-server"],
    ["break take 2", "2 is no client: they are 0 to 1"],
    ["break take x if doc 0 is x", "x is no client: they are 0 to 1"],
    ["break take 1 1", "1 is a word too many"],
    ["break read-server 0", "0 is a word too many"],
    ["break edit 0 [1 time 1", "[1 is no operation"],
    ["break edit 0 [1] 2", "2 is a word too many"],
    ["break time 2", "a place, words or a condition are missing"],
  ];
  const said = answers(rows.map(([row]) => row));
  rows.forEach(([row, complaint], i) => assert.ok(said[i].startsWith(`${complaint}; break `), `${row}: ${said[i]}`));
});

test("what is displayed stands behind each move", options, () => {
  const [first, , moved, still, all, again] = answers(["display doc 1", "display server", "goto 6", "show server", "display", "display doc 1"]);
  assert.equal(first, 'displaying doc of client 1\nclient 1 doc: "x"');
  assert.deepEqual(moved.split("\n").slice(-2), ['client 1 doc: "cx"', "the server's revision: 2"]);
  assert.doesNotMatch(still, /client 1 doc/);
  assert.equal(all, 'client 1 doc: "cx"\nthe server\'s revision: 2');
  assert.match(again, /^already displaying doc of client 1\n/);
});

test("breaks, watches and displays are listed and removed by their numbers", options, () => {
  const [, , , listed, removed, none, left, cleared] = answers(["break deliver", "watch doc 0", "display server", "info", "delete 2", "delete 2", "info breaks", "clear"]);
  assert.equal(listed, "1 break deliver  (at 3 places, 0 of them up to here)\n2 watch doc 0\n3 display server");
  assert.equal(removed, "no watch doc 0 any more");
  assert.match(none, /^there is no break, watch or display 2; delete N$/);
  assert.equal(left, "1 break deliver  (at 3 places, 0 of them up to here)\n3 display server");
  assert.equal(cleared, "no breaks, no watches; undo brings back the 2");
});

test("next and until, backwards", options, () => {
  const [, back, further, forth, take, none] = answers(["goto 5", "rnext", "rnext", "next", "runtil edit 0", "runtil take 0"]);
  assert.equal(back, "before line 9, instruction 4: take 1");
  assert.equal(further, "before line 8, instruction 3: edit 1");
  assert.equal(forth.split("\n")[0], "behind line 8, instruction 3: edit 1");
  assert.match(take, /^before line \d+, instruction [12]: edit 0/);
  assert.equal(none, "no earlier instruction begins with take 0");
});

test("of a file that never ends, or has too long a line, nothing is performed", options, () => {
  const folder = mkdtempSync(path.join(tmpdir(), "otbench-"));
  try {
    const file = path.join(folder, "commands");
    writeFileSync(file, `step\n${"a".repeat(1_000_001)}\n`);
    const [said, place] = answers([`source ${file}`, "where"]);
    assert.equal(said, `${file}, line 2: the line has more than 1,000,000 characters; source FILE`);
    assert.match(place, /^the opening: /);
    if (existsSync("/dev/zero")) assert.match(answers(["source /dev/zero"])[0], /^\/dev\/zero: it has more than [\d,]+ bytes, which is the most of commands; source FILE$/);
  } finally {
    rmSync(folder, { recursive: true });
  }
});

test("undo takes the moves of a file of commands back one by one, the last one first", options, () => {
  const folder = mkdtempSync(path.join(tmpdir(), "otbench-"));
  try {
    const file = path.join(folder, "commands");
    writeFileSync(file, "step\nbreak 9\nclear\nstep\nstep\n");
    const session = new Debugger(new Recording(ask, WEAK), { files });
    const places = [`source ${file}`, "undo", "undo", "undo", "undo", "undo"].map((line) => (session.perform(line), session.place));
    assert.deepEqual(places, [3, 2, 1, 1, 0, 0]);
    assert.deepEqual(session.perform("info"), ["1 break 9  (at 1 place, 0 of them up to here)"]);
  } finally {
    rmSync(folder, { recursive: true });
  }
});

test("what is saved is there again when it is sourced; a file is not written over", options, () => {
  const folder = mkdtempSync(path.join(tmpdir(), "debugger-"));
  const file = path.join(folder, "breaks");
  const commands = ['break take 1 if doc 1 contains "c" time 1', "break 7", "watch doc server", "display buffer 0"];
  const [saved, again] = answers([...commands, `save ${file}`, `save ${file}`]).slice(4);
  assert.equal(saved, `4 commands in ${file}; source ${file} performs them`);
  assert.match(again, /: is there already; save FILE$/);
  assert.equal(readFileSync(file, "utf8"), `${commands.join("\n")}\n`);
  const [sourced, info] = answers([`source ${file}`, "info"]);
  assert.equal(sourced.split("\n").filter((line) => line.startsWith("> ")).length, 4);
  assert.deepEqual(info.split("\n").map((line) => line.replace(/^\d+ |  \(.*/g, "")), commands);
  writeFileSync(file, "; a comment\n\nstep\nbogus\nstep\n");
  const [stopped, place] = answers([`source ${file}`, "back"]);
  assert.match(stopped, new RegExp(`\n> bogus\n${file}, line 4: there is no bogus; `));
  assert.equal(place, "before line 5, instruction 0: edit 0");
  writeFileSync(file, `source ${file}\n`);
  assert.match(answers([`source ${file}`])[0], /, line 1: a file of commands sources no other; /);
  assert.match(answers(["source nosuch"])[0], /^nosuch: there is no such file; /);
  rmSync(folder, { recursive: true });
});
