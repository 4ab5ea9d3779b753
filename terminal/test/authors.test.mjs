// Who typed what, what changed, marks, and the schedule written and read again. The values are worked by hand.

import assert from "node:assert/strict";
import { mkdtempSync, readFileSync, rmSync, writeFileSync } from "node:fs";
import { tmpdir } from "node:os";
import path from "node:path";
import test from "node:test";
import { between } from "../authors.mjs";
import { Debugger } from "../debugger.mjs";
import { files } from "../filing.mjs";
import { Recording } from "../recording.mjs";
import { ask, options } from "./program.mjs";

const TIE = 'clients 2\nstart "s"\nedit 0 ["a",1]\nedit 1 ["b",1]\nedit 1 [1,"c",1]\ntake 0\ndeliver 1\ntake 1\nack 1\nack 0\ndeliver 0\ntake 1\nack 1\ndeliver 0\n';

const open = (schedule = TIE, port = null, source = null) => new Debugger(new Recording(ask, schedule, port), { source, files });
const answers = (lines, session = open()) => lines.map((line) => session.perform(line).join("\n"));

test("who says by which edit, message, entry and delivery a character came", options, () => {
  const [, c, b, own, start] = answers(["goto end", "who 0 1", "who server 0", "who 1 1", "who 0 3"]);
  assert.equal(c, '"c" at 1 of the document of client 0\n  inserted by client 1: line 5, instruction 2: edit 1\n  sent from the buffer: line 9, instruction 6: ack 1\n  taken by the server as revision 3: line 12, instruction 9: take 1\n  delivered to client 0: line 14, instruction 11: deliver 0');
  assert.equal(b, '"b" at 0 of the document of the server\n  inserted by client 1: line 4, instruction 1: edit 1\n  taken by the server as revision 2: line 8, instruction 5: take 1');
  assert.match(own, /^"c" at 1 of the document of client 1\n {2}inserted by client 1/);
  assert.equal(start, '"s" at 3 of the document of client 0: of the start text');
});

test("who refuses what is no character, and what is no client", options, () => {
  const [none, missing, far, other, object] = answers(["who 2 0", "who 0", "who 0 1", "who 0 x", "who constructor 0"]);
  assert.match(none, /^2 is no client: they are 0 to 1; who /);
  assert.match(missing, /^the character's number is missing/);
  assert.match(far, /^1 is no character of the document: they are 0 to 0/);
  assert.match(other, /^x is no character/);
  assert.match(object, /^constructor is no client/);
});

test("a client that joined has a character since then", options, () => {
  const session = open('clients 2\npresent 1\nedit 0 ["a"]\ntake 0\njoin 1\n');
  const [before, , joined] = answers(["blame 1", "goto end", "who 1 0"], session);
  assert.match(before, /^client 1 has not joined/);
  assert.match(joined, /client 1 has it since it joined: line 5, instruction 2: join 1$/);
});

test("blame shows each piece with its author and instruction", options, () => {
  const [empty, , all] = [answers(["blame 0"], open("clients 1\n"))[0], ...answers(["goto end", "blame server"])];
  assert.equal(empty, "the document is empty");
  assert.equal(all, '"b"  client 1, instruction 1\n"c"  client 1, instruction 2\n"a"  client 0, instruction 0\n"s"  the start text');
});

test("blame of a part, and of many pieces the first ones", options, () => {
  const session = open();
  session.perform("goto end");
  assert.deepEqual(session.perform("blame server 1 3"), ['"c"  client 1, instruction 2', '"a"  client 0, instruction 0']);
  for (const [words, complaint] of [["1", "the number behind the last character is missing"], ["3 3", "3 to 3 is no part of the document, which has 4 characters"], ["0 5", "0 to 5 is no part"], ["x 2", "x is no number"], ["0 1 2", "2 is a word too many"]]) assert.match(session.perform(`blame 0 ${words}`)[0], new RegExp(`^${complaint}`), words);
  const many = open(`clients 1\n${Array.from({ length: 50 }, (_, i) => `edit 0 [${i ? `${i},` : ""}"${String.fromCharCode(97 + (i % 26))}"]\n`).join("")}`);
  many.perform("goto end");
  const said = many.perform("blame 0");
  assert.deepEqual([said.length, said[0], said[40]], [41, '"a"  client 0, instruction 0', ".. 10 more of 50 pieces; blame 0 FROM TO shows those of a part"]);
  assert.equal(many.perform("blame 0 0 50").length, 50);
  assert.deepEqual(many.perform("blame 0 45 46"), ['"t"  client 0, instruction 45']);
});

test("diff of many changes shows the first ones, and its operation cut", options, () => {
  const session = open(`clients 1\nstart "${"ab".repeat(60)}"\nedit 0 [${Array.from({ length: 60 }, () => '1,"x",1').join(",")}]\n`);
  const said = session.perform("diff 0 1 0");
  assert.equal(said[0], 'client 0 doc: [1,"x",2,"x",..] (121 components)');
  assert.deepEqual([said.length, said[1], said.at(-1)], [42, '  at 1: + "x"', "  .. 20 more of 60 changes"]);
});

test("find goes to where a document gains or loses a text, and rfind back", options, () => {
  const session = open();
  const [one, two, , back, none, empty] = answers(["find bc", 'find "bca"', "goto end", "rfind bca", "rfind \"zz\"", 'find ""'], session);
  assert.match(one, /^behind line 5, .*\n.*\nclient 1 doc: "bc" nowhere -> once$/);
  assert.match(two, /client 1 doc: "bca" nowhere -> once$/);
  assert.match(back, /^before line 14, instruction 11: deliver 0\nclient 0 doc: "bca" nowhere -> once$/);
  assert.equal(none, 'no earlier instruction changes how often a document has "zz"');
  assert.match(empty, /^the text is empty/);
});

test("half of a surrogate pair is not searched for: it stands in no document, but within each pair of a string", options, () => {
  const session = open('clients 1\nedit 0 ["\u{1F600}"]\n');
  for (const line of ['find "\\ud83d"', 'rfind "\\ude00"', 'break if doc 0 contains "\\ud83d"']) assert.match(session.perform(line)[0], /^"\\ud[8e]\w\w" has half of a surrogate pair, which no document has/, line);
  assert.match(session.perform('find "\\ud83d\\ude00"').at(-1), /nowhere -> once$/);
});

test("find and rfind count how often, from the first instruction to the last, and stop there", options, () => {
  const session = open('clients 1\nstart "ab"\nedit 0 ["ab",2]\nedit 0 [-2,2]\nedit 0 [2,"c"]\nedit 0 [-1,2]\n');
  const gone = (word) => [session.perform(`${word} ab`).at(-1), session.place];
  const said = (from, to) => `client 0 doc: "ab" ${from} -> ${to}`;
  assert.deepEqual(Array.from({ length: 4 }, () => gone("find")), [[said("once", "2 times"), 1], [said("2 times", "once"), 2], [said("once", "nowhere"), 4], ['no further instruction changes how often a document has "ab"', 4]]);
  assert.deepEqual(Array.from({ length: 4 }, () => gone("rfind")), [[said("once", "nowhere"), 3], [said("2 times", "once"), 1], [said("once", "2 times"), 0], ['no earlier instruction changes how often a document has "ab"', 0]]);
});

test("diff shows two places, and two documents at one", options, () => {
  const session = open();
  const [both, one, , documents, same] = answers(["diff 0 3", "diff 3 0 1", "goto 3", "diff doc 0 1", "diff doc server server"], session);
  assert.equal(both, 'client 0 doc: ["a",1]\n  at 0: + "a"\nclient 1 doc: ["bc",1]\n  at 0: + "bc"\nthe server\'s document: the same characters');
  assert.equal(one, 'client 1 doc: [-2,1]\n  at 0: - "bc"');
  assert.equal(documents, '["bc",-1,1]\n  at 0: + "bc"\n  at 2: - "a"');
  assert.equal(same, "the same characters");
});

test("an operation between two lists leads from the one to the other", () => {
  const element = (character) => ({ character });
  const [a, b, c, d] = ["a", "b", "c", "d"].map(element);
  assert.deepEqual(between([a, b], [c, b, d]), [{ kind: "insert", text: "c" }, { kind: "delete", text: "a" }, { kind: "retain", text: "b" }, { kind: "insert", text: "d" }]);
  assert.equal(between([a, b], [b, a]), null);
  assert.deepEqual(between([], []), []);
});

test("marks are places with names, and undo takes moves back", options, () => {
  const session = open();
  const [none, , mark, , , back, again, last, bad] = answers(["mark", "goto 4", "mark tie", "goto end", "mark", "goto tie", "undo", "undo", "mark end"], session);
  assert.equal(none, "no marks");
  assert.equal(mark, "tie at place 4");
  assert.match(back, /^before line 7, instruction 4/);
  assert.match(again, /^behind line 14/);
  assert.match(last, /^before line 7/);
  assert.match(bad, /^end is the last place already/);
  assert.equal(answers(["undo", "undo"], session).at(-1), "no move to undo");
  assert.match(answers(["goto constructor"], session)[0], /^constructor is no place/);
});

test("a schedule is written up to the place, read again, and edited", options, () => {
  const folder = mkdtempSync(path.join(tmpdir(), "otbench-"));
  try {
    const file = path.join(folder, "a.ots");
    writeFileSync(file, TIE);
    const source = { open: () => new Recording(ask, readFileSync(file)), edit: () => (writeFileSync(file, `${TIE}read 0\n`), null) };
    const session = open(TIE, null, source);
    const [, part, whole, there, odd] = answers(["goto 4", `export ${folder}/part.ots`, `export ${folder}/whole.ots complete`, `export ${folder}/part.ots`, `export ${folder}/x all`], session);
    assert.equal(part, `4 instructions in ${folder}/part.ots`);
    assert.equal(readFileSync(`${folder}/part.ots`, "utf8"), TIE.split("\n").slice(0, 6).join("\n") + "\n");
    assert.match(whole, /and what was under way behind them$/);
    assert.match(ask(["run"], readFileSync(`${folder}/whole.ots`)).output, /^quiet$/m);
    assert.match(there, /is there already/);
    assert.match(odd, /^all is not known/);
    answers(["break 9", "mark here", "watch doc 0"], session);
    writeFileSync(file, TIE.split("\n").slice(0, 7).join("\n"));
    const [reloaded, breaks] = answers(["reload", "info"], session);
    assert.match(reloaded, /no break 9 any more: 9 is no place: they are 0 to 5/);
    assert.match(breaks, /^1 watch doc 0$/);
    assert.equal(session.prompt, "(4/5) ");
    writeFileSync(file, 'clients 2\nedit 0 ["a"]\n');
    assert.match(answers(["reload"], session)[0], /^before line 2, instruction 0: edit 0$|^behind line 2, instruction 0: edit 0$/m);
    assert.equal(session.prompt, "(1/1) ");
    writeFileSync(file, "clients 1\nedti\n");
    assert.match(answers(["reload"], session)[0], /UnknownWord[^]*the run stays as it was$/);
    answers(["edit", "goto end"], session);
    assert.equal(session.prompt, "(13/13) ");
    assert.match(answers(["reload"], open())[0], /^there is no file to read again/);
  } finally {
    rmSync(folder, { recursive: true });
  }
});

test("show has what a port printed otherwise", options, () => {
  const session = open(TIE, '{"at":1,"document":"x"}\n{"at":2}\n');
  const [shown] = answers(["goto 1", "show 0"], session).slice(1);
  assert.equal(shown, 'client 0 rev 0 awaiting-confirm "as"\n  outstanding ["a",1]\n  to the server: ["a",1] of revision 0\n  port: document "x", ot.js "as"');
});

test("verdict says whether all documents must agree at the place", options, () => {
  const [start, , tied, , end] = answers(["verdict", "goto 2", "verdict", "goto end", "verdict"]);
  assert.equal(start, 'All documents must be "s".');
  assert.match(tied, /^They may still differ: .* whose edit the server takes first, client 0's or client 1's; complete takes client 0's first\.$/);
  assert.equal(end, 'All documents must be "bcas".');
});
