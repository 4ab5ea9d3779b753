// Differences behind the first one, over the native program. The values are worked by hand from examples/weak-order.ots.

import assert from "node:assert/strict";
import { readFileSync } from "node:fs";
import test from "node:test";
import { Debugger } from "../debugger.mjs";
import { Differences } from "../differing.mjs";
import { Recording } from "../recording.mjs";
import { beside } from "../values.mjs";
import { ask, options } from "./program.mjs";

const WEAK = readFileSync(new URL("../../examples/weak-order.ots", import.meta.url), "utf8");

const open = (port, schedule = WEAK, isSparse = false) => new Debugger(new Recording(ask, schedule, port, isSparse));

/** What a port prints that has these values in place of the program's. */
function printed(changes, schedule = WEAK) {
  return changes.reduce((lines, [from, to]) => {
    assert.ok(lines.includes(from), from);
    return lines.replace(from, to);
  }, ask(["steps", "--documents"], schedule).output);
}

const BUFFER = ['"buffer":["a",1,-1,1],"applied"', '"buffer":["a",-1,1],"applied"'];
const CLIENT = ['"applied":["a",1,-1,1],"document":"acz"', '"applied":["a",1,-1,1],"document":"caz"'];
const SERVER = ['"do":"read-server","document":"acz"', '"do":"read-server","document":"cza"'];

test("next difference goes on from one to the next with conform's answer, and rnext difference back to before them", options, () => {
  const session = open(printed([BUFFER, CLIENT, SERVER]));
  const gone = (line) => [session.perform(line).find((it) => it.startsWith("differs at ") || it.startsWith("the port has ")), session.place];
  const found = [["differs at 7: deliver 0: client 0 buffer", 7], ["differs at 12: deliver 1: client 1 document", 12], ["differs at 15: read 1: client 1 document", 15]];
  assert.deepEqual(gone("next difference"), found[0]);
  assert.deepEqual(gone("n diff"), found[1]);
  assert.deepEqual(gone("next difference"), ["differs at 16: read-server: server document", 16]);
  assert.deepEqual(gone("next difference"), ["the port has no further difference", 16]);
  assert.deepEqual(gone("rnext difference"), ["differs at 16: read-server: server document", 15]);
  assert.deepEqual(gone("rnext difference"), [found[1][0], 11]);
  assert.deepEqual(gone("rnext difference"), [found[0][0], 6]);
  assert.deepEqual(gone("rnext difference"), ["the port has no earlier difference", 6]);
});

/* Client 0 types abc; its port has an x more in front of it. */
const TYPED = 'clients 1\nedit 0 ["a"]\nedit 0 [1,"b"]\nedit 0 [2,"c"]\nread 0\n';

test("what differs in the same way as in the line before is no further difference, what differs in another way is one", options, () => {
  const places = (port, schedule = TYPED) => {
    const { recording } = open(port, schedule, true);
    recording.differences.upTo(recording.end);
    return recording.differences.places.slice(1).map((place) => `${place} ${recording.differences.keysAt(place)}`);
  };
  const line = (at, document) => `${JSON.stringify({ at, document })}\n`;
  assert.deepEqual(places(line(1, "xa") + line(2, "xab") + line(3, "xabc") + line(4, "xabc")), ["1 document"]);
  assert.deepEqual(places(line(1, "xa") + line(2, "xab") + line(3, "xabcd") + line(4, "xabcd")), ["1 document", "3 document"]);
  assert.deepEqual(places(line(1, "xa") + line(2, "ab") + line(3, "xabc")), ["1 document", "3 document"]);
  assert.deepEqual(places('{"at":1,"revision":1}\n{"at":2,"revision":1}\n{"at":3,"revision":2}\n'), ["1 revision", "3 revision"]);
  assert.deepEqual(places('{"at":2,"buffer":[5,"b"]}\n{"at":3,"buffer":[5,"bc"]}\n'), ["2 buffer"]);
  assert.deepEqual(places('{"at":2,"buffer":[5,"b"]}\n{"at":3,"buffer":[6,"bc"]}\n'), ["2 buffer", "3 buffer"]);
  assert.deepEqual(places('{"at":1,"document":"xa","constructor":1,"__proto__":2}\n'), ["1 document"]);
});

test("a document with half of a surrogate pair, whose line is no JSON to conform, is told at its own place", options, () => {
  const session = open('{"at":2,"document":"\\ud83d"}\n{"at":3,"document":"\\ude00"}\n', TYPED, true);
  assert.deepEqual(session.perform("goto 2").slice(0, 1), ["behind line 3, instruction 1: edit 0"]);
  assert.deepEqual(session.perform("print difference"), ["differs at 2: edit 0: client 0 document", 'found "\\ud83d"', 'ot.js "ab"']);
  assert.deepEqual(session.perform("next difference").slice(-3), ["differs at 3: edit 0: client 0 document", 'found "\\ude00"', 'ot.js "abc"']);
});

test("whether conform tells of a value is taken from its data: its words are shown as they are", options, () => {
  const other = (words, text) => {
    const answer = ask(words, text);
    return words.includes("--json") ? answer : { ...answer, output: answer.output.replace("differs at ", "another at ") };
  };
  const session = new Debugger(new Recording(other, WEAK, printed([BUFFER, CLIENT])));
  session.perform("goto 12");
  const [head, ...more] = session.perform("print difference");
  assert.equal(head, "another at 12: deliver 1: client 1 document");
  assert.ok(more.includes("place 0"), more.join("\n"));
});

test("behind the line in which a port stopped it has no difference", options, () => {
  const { recording } = open('{"at":1}\n{"at":1,"stopped":"no"}\n{"at":1,"end":"not quiet"}\n', TYPED);
  recording.differences.upTo(recording.end);
  assert.deepEqual(recording.differences.places, [0, 2]);
});

test("next difference goes to an instruction that ot.js refuses and the port performs", options, () => {
  const session = open('{"at":1,"revision":0}\n{"at":2,"revision":1}\n{"at":3,"document":"x"}\n', 'clients 1\nedit 0 ["a"]\ntake 0\ntake 0\nread 0\n');
  assert.ok(session.perform("next difference").includes("differs at 2: take 0: stopped"));
  assert.equal(session.place, 2);
  assert.deepEqual(session.perform("next difference"), ["the port has no further difference"]);
});

test("a line that is no JSON to conform alone is a difference, forth and back", options, () => {
  const session = open('{"at":1,"revision":0}\n{"at":2,"note":"\\ud83d"}\n{"at":3}\n{"at":4}\n', TYPED);
  assert.ok(session.perform("next difference").includes("differs at 2: edit 0: line"));
  assert.equal(session.place, 2);
  session.perform("goto end");
  assert.ok(session.perform("rnext difference").includes("differs at 2: edit 0: line"));
  assert.equal(session.place, 1);
});

test("print difference is of the place, or says that it is the first", options, () => {
  const session = open(printed([BUFFER, CLIENT]));
  const all = (line) => session.perform(line);
  const first = ["differs at 7: deliver 0: client 0 buffer", 'found ["a",-1,1]', 'ot.js ["a",1,-1,1]'];
  assert.deepEqual(all("print difference").slice(0, 4), ["the port does not differ at place 0; its first difference:", ...first]);
  all("goto 7");
  assert.deepEqual(all("print difference").slice(0, 3), first);
  all("goto 12");
  assert.deepEqual(all("print difference").slice(0, 3), ["differs at 12: deliver 1: client 1 document", 'found "caz"', 'ot.js "acz"']);
});

test("of two values in one line the second is told, too, and what differs as before by its name", options, () => {
  const session = open('{"at":1,"document":"xa"}\n{"at":2,"state":"synchronized","buffer":[7],"document":"xab"}\n', TYPED, true);
  session.perform("goto 1");
  const said = session.perform("next difference");
  for (const line of ["differs at 2: edit 0: client 0 state", 'found "synchronized"', "differs at 2: edit 0: client 0 buffer", "found [7]", "differs as before: document"]) assert.ok(said.includes(line), `${line}: ${said.join("\n")}`);
});

test("a part of a message that differs is told as conform tells it, and its key once", options, () => {
  const SENT = ['"sent":{"revision":2,"operation":["a",1,-1,1]}', '"sent":{"revision":2,"operation":[1,"a",-1,1]}'];
  const session = open(`${printed([BUFFER, SENT])}`, `; client 0 is ann: b\n${WEAK}`);
  session.perform("goto 7");
  const said = session.perform("next difference").filter((line) => line.startsWith("differs"));
  assert.deepEqual(said, ["differs at 8: ack 0: client 0 (ann: b) sent operation"]);
});

test("without a port, or without differences, it is said; Tab completes the word beside a port", options, () => {
  const none = new Debugger(new Recording(ask, WEAK));
  assert.match(none.perform("next difference")[0], /^there are no lines of a port; /);
  assert.deepEqual([none.complete("next d"), open(printed([BUFFER])).complete("rnext d")], [[[], "d"], [["difference"], "d"]]);
  assert.deepEqual(open(printed([])).perform("next difference"), ["the port has no further difference"]);
});

test("a search that is ended answers nothing, and goes on from there the next time", options, () => {
  const { recording } = open(printed([BUFFER]));
  let isStopped = true;
  const differences = new Differences(recording.port, () => isStopped);
  assert.deepEqual([differences.after(0), differences.upTo(16)], [null, null]);
  isStopped = false;
  assert.deepEqual([differences.after(0), differences.upTo(16)], [7, 7]);
});

/* Client 0's operation of 60 components, in which the port has -5 and another insertion in the place of -4. */
const OPERATION = [100, "first", ...Array.from({ length: 28 }, () => [3, "ab"]).flat(), -4, 7];
const LONG = `clients 2\nstart ${JSON.stringify("x".repeat(195))}\nedit 0 ${JSON.stringify(OPERATION)}\ntake 0\nack 0\ndeliver 1\nread 1\nread 0\n`;
const OTHER = [...OPERATION.slice(0, -2), "y", -4, 7];

test("show and why cut two long values around the component that differs, with its number and offset", options, () => {
  const lines = ask(["steps"], LONG).output.split("\n").filter(Boolean).map((line) => line.replace(`"applied":${JSON.stringify(OPERATION)}`, `"applied":${JSON.stringify(OTHER)}`));
  const session = open(`${lines.join("\n")}\n`, LONG);
  const said = '  port: applied [..,"ab","y",-4,7] (61 components), ot.js [..,"ab",-4,7] (60 components); from component 58, offset 184';
  session.perform("goto 4");
  assert.ok(session.perform("show 1").includes(said), session.perform("show 1").join("\n"));
  assert.equal(session.perform("why").at(-1), said);
});

test("of two long texts and messages it is where they part, too; what is no operation stays as it is", options, () => {
  assert.equal(beside(JSON.stringify(`${"a".repeat(100)}b`), JSON.stringify("a".repeat(101))), `.."${"a".repeat(12)}"|"b" (101 characters), ot.js .."${"a".repeat(12)}"|"a" (101 characters); from character 100`);
  const message = (operation) => JSON.stringify({ revision: 3, operation });
  assert.match(beside(message(OTHER), message(OPERATION)), /^\[\.\.,"ab","y",-4,7\] \(61 components\) of revision 3, ot\.js .* of revision 3; from component 58, offset 184$/);
  assert.equal(beside("none", "[1]"), "none, ot.js [1]");
  const odd = JSON.stringify({ constructor: "x".repeat(200) });
  assert.equal(beside(odd, "[1]"), `${odd}, ot.js [1]`);
  assert.match(beside(JSON.stringify([[1, "x".repeat(200)], { a: 1 }, null]), "[1]"), /; from component 0, offset 0$/);
});

test("print port has a value whole as the port printed it, and says of which instruction it is where that is an earlier one", options, () => {
  const session = open(printed([BUFFER]));
  session.perform("goto 7");
  const told = (line) => session.perform(line);
  assert.deepEqual(["print port buffer 0", "print port doc 0", "print port state 0", "print port revision server"].map((line) => told(line).join("/")), ['["a",-1,1]', '"acz"', "awaiting-with-buffer", "2"]);
  assert.deepEqual(told("print port applied 0"), ['[1,"c",1]']);
  assert.deepEqual(told("print port applied 1"), ["the port has not printed it"]);
  session.perform("goto 9");
  assert.deepEqual(told("print port applied 0"), ['[1,"c",1]', "  of line 11, instruction 6: deliver 0"]);
  assert.match(told("print port link 0")[0], /^link is no value of a port's line: they are doc, state, /);
  assert.match(told("print port constructor 0")[0], /^constructor is no value of a port's line: /);
  assert.match(told("print port doc 2")[0], /^2 is no client: /);
  assert.match(told("print doc 0 1")[0], /^1 is a word too many; /);
  assert.match(told("print port doc 0 1")[0], /^1 is a word too many; /);
  assert.match(new Debugger(new Recording(ask, WEAK)).perform("print port doc 0")[0], /^there are no lines of a port; /);
  assert.deepEqual([session.complete("print po"), session.complete("print port ap"), session.complete("print port doc s")], [[["port"], "po"], [["applied", "appended"], "ap"], [["server"], "s"]]);
});

test("behind the last line of a port it is said that it has none, and what it printed last is marked with its instruction", options, () => {
  const lines = printed([BUFFER]).split("\n").slice(0, 8).join("\n");
  const session = open(`${lines}\n`);
  session.perform("goto 9");
  assert.deepEqual(session.perform("show 0").filter((line) => line.startsWith("  port: ")), ['  port: buffer ["a",-1,1], ot.js ["a",1,-1,1]  (of line 11, instruction 6: deliver 0)', "  port: no line here; its lines end at place 7"]);
  assert.ok(session.perform("show server").includes("  port: no line here; its lines end at place 7"));
  assert.deepEqual(session.perform("print port state 0"), ["awaiting-with-buffer", "  of line 11, instruction 6: deliver 0", "  the port has no line here: its lines end at place 7"]);
  session.perform("goto 7");
  assert.deepEqual(session.perform("show 0").filter((line) => line.startsWith("  port: ")), ['  port: buffer ["a",-1,1], ot.js ["a",1,-1,1]']);
});

test("a line of the end is no line of an instruction", options, () => {
  const session = open('{"at":1,"revision":0}\n{"at":1,"end":"quiet"}\n', TYPED);
  session.perform("goto 2");
  assert.ok(session.perform("show 0").includes("  port: no line here; its lines end at place 1"));
});

test("an instruction's value of an earlier instruction is marked with it", options, () => {
  const session = open(printed([['"applied":["a",1,-1,1],"document":"acz"', '"applied":["a",1,1],"document":"acz"']]));
  session.perform("goto 12");
  assert.ok(session.perform("show 1").includes('  port: applied ["a",1,1], ot.js ["a",1,-1,1]'));
  session.perform("goto 14");
  assert.ok(session.perform("show 1").includes('  port: applied ["a",1,1], ot.js ["a",1,-1,1]  (of line 16, instruction 11: deliver 1)'), session.perform("show 1").join("\n"));
});

test("of a sparse port that stopped it is said that it did, and not that its lines end", options, () => {
  const session = new Debugger(new Recording(ask, 'clients 2\nedit 0 ["a"]\nedit 1 ["b"]\ntake 0\nack 0\n', '{"at":1,"document":"a"}\n{"at":2,"stopped":"boom"}\n{"at":2,"end":"not quiet"}\n', true));
  session.perform("run");
  assert.ok(session.perform("show server").includes('  port: no line here; it stopped: "boom"'));
  assert.equal(session.perform("print port doc 0").at(-1), '  the port has no line here: it stopped: "boom"');
});
