// What `find` and `rfind` say beside a port: whose document has the text. The values are worked by hand from examples/weak-order.ots.

import assert from "node:assert/strict";
import { readFileSync } from "node:fs";
import test from "node:test";
import { colouring } from "../colours.mjs";
import { Debugger } from "../debugger.mjs";
import { Recording } from "../recording.mjs";
import { ask, options } from "./program.mjs";

const WEAK = readFileSync(new URL("../../examples/weak-order.ots", import.meta.url), "utf8");

/** A debugger beside the lines that a port printed. */
const open = (port, schedule = WEAK, isSparse = false) => new Debugger(new Recording(ask, schedule, port, isSparse));

/** What the program prints with all documents, in which this is another one. */
const printed = (from, to, schedule = WEAK) => ask(["steps", "--documents"], schedule).output.replace(from, to);

const gone = (session, line) => [session.perform(line).at(-1), session.place];

const FAULTY = printed('"applied":["a",1,-1,1],"document":"acz"', '"applied":["a",1,-1,1],"document":"caz"');

test("find port goes to where a document that the port printed gains or loses a text, find to where one of ot.js does", options, () => {
  assert.match(FAULTY, /"document":"caz"/);
  const session = open(FAULTY);
  assert.deepEqual(gone(session, "find port ca"), ['client 1 doc of the port: "ca" nowhere -> once', 12]);
  assert.deepEqual(gone(session, "find port ca"), ['client 1 doc of the port: "ca" once -> nowhere', 15]);
  assert.deepEqual(gone(session, "rfind port ca"), ['client 1 doc of the port: "ca" once -> nowhere', 14]);
  assert.deepEqual(gone(session, "rfind port ca"), ['client 1 doc of the port: "ca" nowhere -> once', 11]);
  assert.deepEqual(gone(session, "rfind port ca"), ['no earlier instruction changes how often a document of the port has "ca"', 11]);
  assert.deepEqual(gone(session, "find ca"), ['no further instruction changes how often a document of ot.js has "ca"', 11]);
  session.perform("goto 0");
  assert.deepEqual(gone(session, "find cx"), ['client 1 doc of ot.js: "cx" nowhere -> once', 4]);
  assert.deepEqual(gone(session, 'find port "cx"'), ['the server\'s document of the port: "cx" nowhere -> once', 5]);
});

test("of lines for some instructions a document is compared with what was printed before, or with the opening", options, () => {
  const session = open('{"at":4,"client":1,"document":"cx"}\n{"at":11,"client":1,"document":"cxz"}\n{"at":12,"document":"acz"}\n', WEAK, true);
  assert.deepEqual(gone(session, "find port x"), ['client 1 doc of the port: "x" once -> nowhere', 12]);
  assert.deepEqual(gone(session, "rfind port z"), ['client 1 doc of the port: "z" nowhere -> once', 10]);
  assert.deepEqual(gone(session, "rfind port c"), ['client 1 doc of the port: "c" nowhere -> once', 3]);
});

test("a client that joins had no document, and the port's opening has its own text", options, () => {
  const joining = 'clients 2\npresent 1\nstart "s"\njoin 1\nread 0\n';
  assert.deepEqual(gone(open(printed("", "", joining), joining), "find port s"), ['client 1 doc of the port: "s" nowhere -> once', 1]);
  const other = open('{"at":0,"clients":2,"present":1,"start":"t"}\n{"at":1,"document":"s"}\n{"at":2,"document":"s"}\n', joining);
  assert.deepEqual(gone(other, "find port t"), ['client 0 doc of the port: "t" once -> nowhere', 2]);
});

test("lines that are no documents are passed over", options, () => {
  const session = open('{"at":1,"document":3}\nhello\n{"at":3,"document":null}\n{"at":4,"document":"cx","__proto__":{"document":"q"}}\n{"at":4,"stopped":"x","document":"q"}\n{"at":4,"end":"quiet","document":"q"}\n');
  assert.deepEqual(gone(session, "find port q"), ['no further instruction changes how often a document of the port has "q"', 0]);
  assert.deepEqual(gone(session, "find port c"), ['client 1 doc of the port: "c" nowhere -> once', 4]);
});

test("without a port, or documents of one, it is said", options, () => {
  const none = new Debugger(new Recording(ask, WEAK));
  assert.match(none.perform("find port x")[0], /^there are no lines of a port; find \[port\] TEXT$/);
  assert.deepEqual(gone(none, "find c"), ['client 1 doc: "c" nowhere -> once', 4]);
  const session = open('{"at":1,"revision":0}\n');
  assert.match(session.perform("rfind port x")[0], /^the port's lines have no document; rfind \[port\] TEXT$/);
  for (const [line, complaint] of [["find port \"\"", "the text is empty"], ["find other x", "x is a word too many"], ["find \"port\" x", "x is a word too many"], ["find", "a text is missing"]]) assert.ok(session.perform(line)[0].startsWith(`${complaint}; find `), line);
});

test("port alone is a text, and a text of the port may be that word", options, () => {
  const schedule = 'clients 1\nedit 0 ["port"]\nread 0\n';
  const session = open('{"at":1,"document":""}\n{"at":2,"document":"port"}\n', schedule);
  assert.deepEqual(gone(session, "find port"), ['client 0 doc of ot.js: "port" nowhere -> once', 1]);
  assert.deepEqual(gone(session, "find port port"), ['client 0 doc of the port: "port" nowhere -> once', 2]);
});

test("help says how, Tab completes it beside a port, and the answer has a colour", options, () => {
  const session = open(FAULTY);
  assert.match(session.perform("help find")[0], /find port TEXT searches the documents that the port's lines have$/);
  assert.deepEqual([session.complete("find p"), new Debugger(new Recording(ask, WEAK)).complete("find p")], [[["port"], "p"], [[], "p"]]);
  const { NO_COLOR, TERM, ...others } = process.env;
  process.env = others;
  const colour = colouring({ isTTY: true });
  process.env = { ...others, ...(NO_COLOR && { NO_COLOR }), ...(TERM && { TERM }) };
  for (const line of ['client 1 doc of the port: "a" once -> nowhere', 'client 1 (ann) doc of ot.js: "a" once -> nowhere', 'the server\'s document of the port: "a" once -> nowhere']) assert.equal(colour(line), `\x1b[33m${line}\x1b[0m`);
});

test("a client's name stands behind its number", options, () => {
  assert.deepEqual(gone(open(FAULTY, `; client 1 is ann\n${WEAK}`), "find port ca"), ['client 1 (ann) doc of the port: "ca" nowhere -> once', 12]);
});

test("the documents of a port that prints what ot.js has are found where those of ot.js are", options, () => {
  for (let seed = 1; seed <= 10; seed++) {
    const schedule = ask(["generate", "--seed", String(seed), "--clients", "3", "--present", "2", "--instructions", "40"], "").output;
    const [ours, theirs] = [open(printed("", "", schedule), schedule), open(printed("", "", schedule), schedule)];
    for (const word of ["find", "rfind"])
      for (let i = 0; i < 60; i++) {
        const [said, place] = gone(ours, `${word} e`);
        assert.deepEqual(gone(theirs, `${word} port e`), [said.replace("of ot.js", "of the port"), place], `seed ${seed}, ${word} ${i}`);
      }
  }
});

/** The instructions that change how often a text stands in a document, by looking at both documents of each. */
function changing({ recording }, text) {
  const count = (who, place) => recording.text(who === "server" ? null : who, place).split(text).length - 1;
  const places = Array.from({ length: recording.end }, (_, i) => i + 1);
  return places.filter((place) => {
    const { moved } = recording.session.steps[place];
    return count(moved, place - 1) !== count(moved, place);
  });
}

test("what is found by the operations is what both documents of each instruction show, forth and back", options, () => {
  let all = 0;
  for (let seed = 1; seed <= 8; seed++) {
    const generated = ask(["generate", "--seed", String(seed), "--clients", "3", "--present", "2", "--instructions", "60", "--open"], "").output;
    const wide = seed % 2 ? generated : generated.replace(/"(?:[^"\\]|\\.)*"/g, (text) => text.replace(/\\u.{4}|\\.|e/g, (it) => (it === "e" ? "\u{1f600}" : it)));
    assert.equal(ask(["steps"], wide).errors, "");
    const session = open(null, wide);
    for (const text of ["e", "a", "\u{1f600}", "ab"]) {
      const wanted = changing(session, text);
      all += wanted.length;
      const gone = (word, step) => {
        const places = [];
        for (let before = null; before !== session.place; places.push(session.place + step)) {
          before = session.place;
          session.perform(`${word} ${text}`);
        }
        return places.slice(0, -1);
      };
      session.perform("goto 0");
      assert.deepEqual(gone("find", 0), wanted, `seed ${seed}: ${text}`);
      session.perform("goto end");
      assert.deepEqual(gone("rfind", 1), wanted.toReversed(), `seed ${seed}: ${text}`);
    }
  }
  assert.ok(all > 100, String(all));
});

test("a text of characters of more than 16 bits, and one that a client has since it joined", options, () => {
  const session = open(null, 'clients 2\npresent 1\nstart "\u{1f600}a"\nedit 0 [1,"b",1]\ntake 0\njoin 1\nedit 1 [1,-1,1]\n');
  const titles = ["find b", "find b", "find b", "find b"].map((line) => gone(session, line));
  assert.deepEqual(titles, [['client 0 doc: "b" nowhere -> once', 1], ['the server\'s document: "b" nowhere -> once', 2], ['client 1 doc: "b" nowhere -> once', 3], ['client 1 doc: "b" once -> nowhere', 4]]);
});

test("a start text of such characters is not cut within one", options, () => {
  const session = open(null, 'clients 1\nstart "\u{1f600}a"\nedit 0 [1,"b",1]\nedit 0 [-1,2]\n');
  assert.deepEqual(gone(session, "find \u{1f600}"), ['client 0 doc: "\u{1f600}" once -> nowhere', 2]);
});

/** A debugger in which a person has ended each of some searches at place 3, and what lets the next ones go on. */
function interrupted(port, lines) {
  let isStopped = true;
  const session = new Debugger(new Recording(ask, WEAK, port, false, () => isStopped));
  session.perform("goto 3");
  for (const line of lines) assert.deepEqual(gone(session, line), ["interrupted; the place is as it was", 3], line);
  const goOn = () => {
    isStopped = false;
  };
  return { session, goOn };
}

test("a search that a person ends leaves the place as it was", options, () => {
  const { session, goOn } = interrupted(null, ["find nosuch", "rfind nosuch", "run", "rrun"]);
  goOn();
  assert.deepEqual(gone(session, "find cx"), ['client 1 doc: "cx" nowhere -> once', 4]);
});

test("Ctrl-C ends find in what the port printed, until, and the search of the places of a break", options, () => {
  const { session, goOn } = interrupted(FAULTY, ["find port ca", "rfind port c", "until read", "runtil edit"]);
  assert.deepEqual(session.perform("break if doc 0 contains c"), ["interrupted; no break is set"]);
  assert.deepEqual(session.perform("info breaks"), ["no breaks, no watches"]);
  goOn();
  assert.deepEqual(gone(session, "find port ca"), ['client 1 doc of the port: "ca" nowhere -> once', 12]);
  assert.match(session.perform("break if doc 0 contains c")[0], /^break if doc 0 contains c: at /);
});
