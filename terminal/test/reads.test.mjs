// What `who`, `blame` and `find` say beside the reads of the program: `run --json` of the schedule up to a place, with a read behind it.

import assert from "node:assert/strict";
import test from "node:test";
import { Debugger } from "../debugger.mjs";
import { Recording } from "../recording.mjs";
import { ask, options } from "./program.mjs";

// An edit of client 0 inserts "ab" in front of the start text, one deletes the "b", one inserts "c" in its place; client 1 types at the end.
const SESSION = 'clients 2\nstart "xyz"\nedit 0 ["ab",3]\ntake 0\nedit 0 [1,-1,3]\nedit 0 [1,"c",3]\nedit 1 [3,"d"]\ndeliver 1\n';

const open = (schedule) => new Debugger(new Recording(ask, schedule));

/** The last read that the program prints of a schedule and a read behind it. */
const read = (schedule, line) => JSON.parse(ask(["run", "--json"], `${schedule}${line}\n`).output.split("\n").findLast((it) => it.startsWith('{"do":')));

test("who and blame name the edits, not the takes, and a deletion counts nothing twice", options, () => {
  const session = open(SESSION);
  session.perform("goto end");
  assert.deepEqual(read(SESSION, "read 0").by, [[1, 0, 0], [1, 0, 3], [3]]);
  assert.deepEqual(session.perform("blame 0"), ['"a"  client 0, instruction 0', '"c"  client 0, instruction 3', '"xyz"  the start text']);
  assert.equal(session.perform("who 0 1")[1], "  inserted by client 0: line 6, instruction 3: edit 0");
  assert.deepEqual(read(SESSION, "read 1").by, [[2, 0, 0], [3], [1, 1, 4]]);
  assert.deepEqual(session.perform("blame 1"), ['"ab"  client 0, instruction 0', '"xyz"  the start text', '"d"  client 1, instruction 4']);
  assert.deepEqual(session.perform("blame server"), ['"ab"  client 0, instruction 0', '"xyz"  the start text']);
});

test("a character outside the basic plane is one character of a span", options, () => {
  const session = open('clients 1\nstart "😀é"\nedit 0 [1,"𝄞\\u202e",1]\n');
  session.perform("goto end");
  assert.deepEqual(session.perform("blame 0"), ['"😀"  the start text', '"𝄞\u202e"  client 0, instruction 0', '"é"  the start text']);
  assert.match(session.perform("who 0 3")[0], /^"é" at 3 .*: of the start text$/);
});

test("find goes by the documents that reads show, at each place", options, () => {
  const times = (place, line, text) => read(open(SESSION).recording.scheduleUpTo(place), line).document.split(text).length - 1;
  const places = Array.from({ length: 7 }, (_, place) => place);
  for (const text of ["ab", "ac", "zd", "x"]) {
    const changes = places.slice(1).filter((place) => ["read 0", "read 1", "read-server"].some((line) => times(place - 1, line, text) !== times(place, line, text)));
    const session = open(SESSION);
    const found = [...changes, null].map(() => (session.perform(`find ${text}`)[0].startsWith("no further") ? null : session.place));
    assert.deepEqual(found, [...changes, null], text);
  }
});

test("behind as many instructions as a schedule may have there is no room for a read, and who says so", options, () => {
  const full = `clients 1\nedit 0 ["a"]\n${"read-server\n".repeat(99_999)}`;
  const session = open(full);
  session.perform("goto end");
  for (const line of ["who 0 0", "blame 0"]) assert.match(session.perform(line).join("\n"), /^authors are those that a read behind the place shows, and it is refused: otbench: line 100002: TooMany/);
  session.perform("goto 99999");
  assert.deepEqual(session.perform("blame 0"), ['"a"  client 0, instruction 0']);
});
