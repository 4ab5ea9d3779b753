// What `info` says of the edits that made a client's operation. The values are worked by hand from examples/weak-order.ots; the edits of generated sessions are those of a queue.

import assert from "node:assert/strict";
import { readFileSync } from "node:fs";
import test from "node:test";
import { Debugger } from "../debugger.mjs";
import { Recording } from "../recording.mjs";
import { ask, options } from "./program.mjs";

const WEAK = readFileSync(new URL("../../examples/weak-order.ots", import.meta.url), "utf8");

const open = (schedule = WEAK) => new Debugger(new Recording(ask, schedule));
const answers = (lines, session = open()) => lines.map((line) => session.perform(line).join("\n"));

const OF_BUFFER = ['made by line 6, instruction 1: edit 0 [1,"a",1]', 'composed with line 7, instruction 2: edit 0 [-1,2], makes ["a",-1,1]', 'transformed by line 11, instruction 6: deliver 0, makes ["a",1,-1,1]'];
const within = (lines) => lines.map((line) => `\n  ${line}`).join("");

test("info says of which edits a buffer is made, and which delivery transformed it", options, () => {
  const [, one, , two, , three, , sent] = answers(["goto 2", "info buffer 0", "goto 3", "info buffer 0", "goto 7", "info buffer 0", "goto 8", "info buffer 0"]);
  assert.equal(one, `client 0 buffer: [1,"a",1]; made of 1 edit${within(OF_BUFFER.slice(0, 1))}`);
  assert.equal(two, `client 0 buffer: ["a",-1,1]; made of 2 edits${within(OF_BUFFER.slice(0, 2))}`);
  assert.equal(three, `client 0 buffer: ["a",1,-1,1]; made of 2 edits, transformed by 1 delivery${within(OF_BUFFER)}`);
  assert.equal(sent, "none");
});

test("info says of an outstanding operation whether an edit was sent at once, or a buffer by an acknowledgement", options, () => {
  const [none, , first, moved, , second, , third] = answers(["info outstanding 0", "goto 7", "info outstanding 0", "step", "where", "info outstanding 0", "goto end", "info outstanding 0"]);
  assert.equal(none, "none");
  assert.equal(first, `client 0 outstanding: [2,"z"]; made of 1 edit, transformed by 1 delivery${within(['made and sent by line 5, instruction 0: edit 0 [1,"z"]', 'transformed by line 11, instruction 6: deliver 0, makes [2,"z"]'])}`);
  assert.match(moved, /^behind line 12, instruction 7: ack 0\n/);
  assert.equal(second, `client 0 outstanding: ["a",1,-1,1]; made of 2 edits, transformed by 1 delivery${within([...OF_BUFFER, "sent from the buffer by line 12, instruction 7: ack 0"])}`);
  assert.equal(third, "none");
});

test("a buffer that was sent is transformed by the deliveries behind that; an edit behind it is none of it", options, () => {
  const schedule = 'clients 2\nedit 0 ["a"]\nedit 0 [1,"b"]\nedit 1 ["x"]\ntake 0\nack 0\nedit 0 [2,"c"]\ntake 1\ndeliver 0\n';
  const [, sent, buffer, message] = answers(["goto end", "info outstanding 0", "info buffer 0", "info message 0"], open(schedule));
  const made = ['made by line 3, instruction 1: edit 0 [1,"b"]', "sent from the buffer by line 6, instruction 4: ack 0"];
  assert.equal(sent, `client 0 outstanding: [2,"b"]; made of 1 edit, transformed by 1 delivery${within([...made, 'transformed by line 9, instruction 7: deliver 0, makes [2,"b"]'])}`);
  assert.equal(buffer, `client 0 buffer: [3,"c"]; made of 1 edit, transformed by 1 delivery${within(['made by line 7, instruction 5: edit 0 [2,"c"]', 'transformed by line 9, instruction 7: deliver 0, makes [3,"c"]'])}`);
  assert.equal(message, `client 0 message: [1,"b"] of revision 1; made of 1 edit${within(made)}`);
});

test("info message is of what is under way to the server, as it was sent", options, () => {
  const [, first, , taken, , again] = answers(["goto 5", "info message 0", "goto 6", "info message 0", "goto 8", "info message 0"]);
  assert.equal(first, `client 0 message: [1,"z"] of revision 0; made of 1 edit${within(['made and sent by line 5, instruction 0: edit 0 [1,"z"]'])}`);
  assert.equal(taken, "none");
  assert.equal(again, `client 0 message: ["a",1,-1,1] of revision 2; made of 2 edits, transformed by 1 delivery${within([...OF_BUFFER, "sent from the buffer by line 12, instruction 7: ack 0"])}`);
});

test("info without a word, and with the front of one, lists breaks; other words are complained of", options, () => {
  const session = open();
  for (const line of ["info", "info b", "info breaks", "i"]) assert.deepEqual(session.perform(line), ["no breaks, no watches"], line);
  session.perform("goto 3");
  for (const word of ["bu", "b"]) assert.deepEqual(session.perform(`info ${word} 0`), session.perform("info buffer 0"));
  const rows = [["info foo", "foo is not known"], ["info doc 0", "doc is not known"], ["info constructor 0", "constructor is not known"], ["info buffer", "nothing is no client: they are 0 to 1"], ["info buffer 2", "2 is no client: they are 0 to 1"], ["info buffer server", "server is no client: they are 0 to 1"], ["info message __proto__", "__proto__ is no client: they are 0 to 1"], ["info breaks 0", "0 is a word too many"]];
  for (const [line, complaint] of rows) assert.equal(session.perform(line)[0], `${complaint}; info [breaks], info outstanding|buffer|message C`, line);
  assert.deepEqual(session.complete("info "), [["breaks", "outstanding", "buffer", "message"], ""]);
  assert.deepEqual(session.complete("info buffer "), [["0", "1"], ""]);
});

test("of a buffer of many edits the first ones and the last are shown", options, () => {
  const edits = Array.from({ length: 301 }, (_, i) => `edit 0 ["${"abc"[i % 3]}"${i ? `,${i}` : ""}]\n`);
  const lines = answers(["goto end", "info buffer 0"], open(`clients 1\n${edits.join("")}`))[1].split("\n");
  assert.match(lines[0], /; made of 300 edits$/);
  assert.deepEqual([lines.length, lines[101]], [202, "  .. 100 more"]);
  assert.match(lines[1], /^ {2}made by line 3, instruction 1: /);
  assert.match(lines[100], /^ {2}composed with line 102, instruction 100: /);
  assert.match(lines[102], /^ {2}composed with line 203, instruction 201: /);
  assert.match(lines.at(-1), /^ {2}composed with line 302, instruction 300: /);
});

test("a client that has not joined has no operation, and a name stands behind its number", options, () => {
  const session = open('; client 0 is ann\nclients 2\npresent 1\nedit 0 ["client 0"]\nedit 0 [8,"b"]\n');
  session.perform("goto end");
  for (const what of ["outstanding", "buffer", "message"]) assert.deepEqual(session.perform(`info ${what} 1`), ["none"]);
  assert.deepEqual(session.perform("info outstanding 0"), ['client 0 (ann) outstanding: ["client 0"]; made of 1 edit', '  made and sent by line 4, instruction 0: edit 0 ["client 0"]']);
});

test("long operations are cut, and print has all", options, () => {
  const long = "typed ".repeat(2000);
  const session = open(`clients 1\nedit 0 ["a"]\nedit 0 [1,${JSON.stringify(long)}]\n`);
  session.perform("goto end");
  const said = session.perform("info buffer 0");
  assert.equal(said.length, 2);
  assert.ok(said.every((line) => line.length < 200), said.join("\n"));
  assert.equal(session.perform("print buffer 0")[0], JSON.stringify([1, long]));
});

/** The edits that are under way of each client at each place, by the words of the instructions: an edit is sent at once or waits, an acknowledgement sends all that wait. */
function queuesOf({ instructions, end, clients }) {
  const queues = Array.from({ length: clients }, () => ({ outstanding: [], buffer: [] }));
  return instructions.slice(0, end).map(({ words }, number) => {
    const [word, client] = words.split(" ");
    const queue = queues[client];
    const pending = { number, deliveries: [] };
    if (word === "edit") queue[queue.outstanding.length === 0 ? "outstanding" : "buffer"].push(pending);
    else if (word === "ack") Object.assign(queue, { outstanding: queue.buffer, buffer: [] });
    else if (word === "deliver") for (const edit of [...queue.outstanding, ...queue.buffer]) edit.deliveries.push(number);
    return structuredClone(queues);
  });
}

const numbersOf = (said, word) => said.filter((line) => line.includes(`: ${word} `)).map((line) => Number(/instruction (\d+): /.exec(line)[1]));

const SESSIONS = 12;

test(`${SESSIONS} generated sessions: the edits are those that were not acknowledged, and the deliveries those behind the first of them`, options, () => {
  let [compared, transformed] = [0, 0];
  for (let seed = 1; seed <= SESSIONS; seed++) {
    const session = open(ask(["generate", "--seed", String(seed), "--clients", "3", "--present", "2", "--instructions", "60", "--open"], "").output);
    for (const [number, queues] of queuesOf(session.recording).entries()) {
      session.goTo(number + 1);
      for (const [client, queue] of queues.entries())
        for (const what of ["outstanding", "buffer"]) {
          const [head, ...said] = session.perform(`info ${what} ${client}`);
          const where = `seed ${seed}, place ${number + 1}: info ${what} ${client}`;
          assert.deepEqual(numbersOf(said, "edit"), queue[what].map((edit) => edit.number), where);
          assert.deepEqual(numbersOf(said, "deliver"), queue[what][0]?.deliveries ?? [], where);
          assert.equal(head === "none", queue[what].length === 0, where);
          compared += said.length > 1 ? 1 : 0;
          transformed += queue[what][0]?.deliveries.length > 0 ? 1 : 0;
        }
    }
  }
  assert.ok(compared > SESSIONS && transformed > SESSIONS, `${compared} of several lines, ${transformed} transformed`);
});
