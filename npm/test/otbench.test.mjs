// The functions of the package, on values from the documents and worked by hand.

import assert from "node:assert/strict";
import fs from "node:fs";
import { test } from "node:test";
import * as otbench from "../otbench.mjs";
import { TOP, example } from "./files.mjs";

const { assemble, benchOf, check, complete, conform, conformMany, disassemble, explain, generate, judge, run, serve, steps } = otbench;

const TWO_CLIENTS = {
  reads: [],
  stopped: null,
  clients: [
    { revision: 2, state: "synchronized", document: "ba" },
    { revision: 2, state: "synchronized", document: "ba" },
  ],
  server: { revision: 2, document: "ba" },
  quiet: true,
};

test("run: where a session ends", () => {
  assert.deepEqual(run(example("two-clients.ots")), TWO_CLIENTS);
});

test("run: reads, a refused instruction, a client that has not joined, texts with what lines and JSON have of their own", () => {
  const text = 'clients 3\npresent 2\nstart "a\\n\\"\u2028é😀"\nedit 0 ["x",6]\nread 0\nread-server\nedit 0 [1]\n';
  assert.deepEqual(run(text), {
    reads: [
      { client: 0, document: 'xa\n"\u2028é😀', by: [[1, 0, 0], [6]] },
      { client: null, document: 'a\n"\u2028é😀', by: [[6]] },
    ],
    stopped: { at: 3, line: 7, refusal: "BadBase" },
    clients: [
      { revision: 0, state: "awaiting-confirm", document: 'xa\n"\u2028é😀' },
      { revision: 0, state: "synchronized", document: 'a\n"\u2028é😀' },
      { revision: 0, state: "not-joined", document: "" },
    ],
    server: { revision: 0, document: 'a\n"\u2028é😀' },
    quiet: false,
  });
});

test("run: bytes of UTF-8, and an image", () => {
  assert.deepEqual(run(Buffer.from(example("two-clients.ots"))), TWO_CLIENTS);
  assert.deepEqual(run(assemble(example("two-clients.ots")), { image: true }), TWO_CLIENTS);
});

test("steps: the lines as values", () => {
  assert.deepEqual(steps('clients 1\nedit 0 ["a"]\ntake 0\nack 1\n'.replace("ack 1", "ack 0")), [
    { at: 0, clients: 1, present: 1, start: "" },
    {
      at: 1,
      do: "edit",
      client: 0,
      edit: ["a"],
      revision: 0,
      state: "awaiting-confirm",
      outstanding: ["a"],
      sent: { revision: 0, operation: ["a"] },
    },
    { at: 2, do: "take", client: 0, revision: 1, appended: ["a"] },
    { at: 3, do: "ack", client: 0, revision: 1, state: "synchronized" },
    { at: 3, end: "quiet" },
  ]);
});

test("steps: with documents, and a stop", () => {
  const lines = steps('clients 1\nedit 0 ["a"]\ndeliver 0\n', { documents: true });
  assert.equal(lines[1].document, "a");
  assert.deepEqual(lines.slice(2), [
    { at: 1, do: "deliver", client: 0, stopped: "LinkEmpty" },
    { at: 1, end: "not quiet" },
  ]);
});

test("explain: words, of a refused instruction too", () => {
  const said = explain("clients 2\njoin 1\n");
  assert.equal(
    said,
    'the opening: 2 of 2 clients joined, every document is ""\nline 2, instruction 0: join 1\n' +
      "  refused: AlreadyJoined: the client is there already: it joined before, or was there at the opening, as all clients are without a line `present P`\n" +
      'the end: all is quiet\nAll documents must be "".\n',
  );
});

/* A port that keeps its buffer as it was, as the guide shows it. */
const withBufferKept = () => steps(example("weak-order.ots")).map((it) => (it.at === 7 ? { ...it, buffer: ["a", -1, 1] } : it));

test("conform: the first difference", () => {
  const answer = conform(example("weak-order.ots"), withBufferKept());
  assert.deepEqual(answer, {
    verdict: "differs",
    conforms: false,
    at: 7,
    line: 11,
    instruction: "deliver 0",
    client: 0,
    key: "buffer",
    found: '["a",-1,1]',
    otjs: '["a",1,-1,1]',
    place: null,
    points: null,
    rule: "AwaitingWithBuffer.applyServer",
    given: [
      { name: "outstanding", value: '[1,"z"]' },
      { name: "buffer", value: '["a",-1,1]' },
      { name: "operation", value: '["c",1]' },
    ],
    note: "that is the buffer as it was, not transformed",
    unknown: [],
    text:
      'differs at 7: deliver 0: client 0 buffer\nfound ["a",-1,1]\not.js ["a",1,-1,1]\nrule AwaitingWithBuffer.applyServer\n' +
      'given outstanding [1,"z"]\ngiven buffer ["a",-1,1]\ngiven operation ["c",1]\n' +
      "note that is the buffer as it was, not transformed\n",
  });
});

test("conform: a text that differs, with its place and a character that ends lines elsewhere", () => {
  const { client, key, found, otjs, place, points } = conform('clients 1\nedit 0 ["ab"]\n', [{ at: 1, document: "a\u2028" }]);
  assert.deepEqual({ client, key, found, otjs, place }, { client: 0, key: "document", found: '"a\u2028"', otjs: '"ab"', place: 1 });
  assert.deepEqual(points, { found: [0x2028, 0x22], otjs: [0x62, 0x22] });
});

test("conform: how much was compared; lines as texts, one text, bytes and values", () => {
  const schedule = 'clients 1\nedit 0 ["a"]'; // its last line without an end
  const line = '{"at":1,"document":"a","revision":0}';
  for (const lines of [[line], line, `${line}\n`, Buffer.from(line), [{ at: 1, document: "a", revision: 0 }]]) {
    const answer = conform(schedule, lines);
    assert.equal(answer.verdict, "conforms");
    assert.ok(answer.conforms);
    const compared = Object.entries(answer.compared).filter(([, count]) => count > 0);
    assert.deepEqual(compared, [["revision", 1], ["document", 1]]);
  }
});

test("conform: a port that printed nothing", () => {
  const { verdict, key, found } = conform("clients 1\nread 0\n", []);
  assert.deepEqual({ verdict, key, found }, { verdict: "differs", key: "line", found: "nothing" });
});

test("conform: lines for some instructions", () => {
  const schedule = 'clients 2\nedit 0 ["a"]\ntake 0\nack 0\ndeliver 1\n';
  const answer = (lines) => conform(schedule, lines, { sparse: true });
  assert.equal(answer([{ at: 4, document: "a" }]).compared.document, 1);
  assert.equal(answer([{ at: 2 }]).verdict, "nothing compared");
  assert.equal(answer([]).verdict, "nothing compared");
  const { at, instruction, client, key, found, otjs } = answer([{ at: 4, document: "b" }]);
  assert.deepEqual({ at, instruction, client, key, found, otjs }, { at: 4, instruction: "deliver 1", client: 1, key: "document", found: '"b"', otjs: '"a"' });
  assert.deepEqual(answer([{ at: 3 }, { at: 2 }]).found, "2");
  assert.deepEqual(conform(schedule, [{ at: 4, document: "a" }]).found, "4");
});

test("conform: where lines for some instructions end before the last one, linesEnd has the place", () => {
  const schedule = 'clients 2\nedit 0 ["a"]\ntake 0\nack 0\ndeliver 1\n';
  const end = (lines, text = schedule, sparse = true) => conform(text, lines, { sparse }).linesEnd;
  assert.equal(end([{ at: 2, revision: 1 }]), 2);
  assert.equal(end('{"at":1,"revision":0}\n{"at":3,"revision":1}\n \t\n'), 3);
  assert.equal(end([{ at: 0, clients: 2 }]), 0);
  const whole = [[{ at: 4, document: "a" }], [{ at: 4, end: "quiet" }], [{ at: 2, revision: 1 }, { at: 4, end: "quiet" }]];
  for (const lines of whole) assert.equal("linesEnd" in conform(schedule, lines, { sparse: true }), false);
  for (const lines of [[{ at: 2 }], [{ at: 2, revision: 7 }], []]) assert.equal(end(lines), undefined);
  assert.equal(end([{ at: 1, revision: 0 }], schedule.slice(0, schedule.indexOf("take")), false), undefined);
  assert.equal(end([{ at: 2, revision: 1 }], `${schedule}; cut: "ann, event 9"\n`), 2);
});

test("conformMany: which sessions' lines for some instructions end before the last one", () => {
  const schedule = 'clients 1\nedit 0 ["a"]\ntake 0\n';
  const [early, whole] = [{ schedule, lines: [{ at: 1, document: "a" }] }, { schedule, lines: [{ at: 2, revision: 1 }] }];
  assert.deepEqual(conformMany([early, whole, early], { sparse: true }).linesEnd, [{ session: 1, place: 1 }, { session: 3, place: 1 }]);
  assert.equal("linesEnd" in conformMany([whole], { sparse: true }), false);
  assert.equal("linesEnd" in conformMany([], { sparse: true }), false);
  assert.equal("linesEnd" in conformMany([early, { schedule, lines: [{ at: 1, document: "b" }] }], { sparse: true }), false);
  const cut = { ...early, schedule: `${schedule}; cut: "x"\n` };
  const { session, verdict, linesEnd } = conformMany([whole, cut], { sparse: true });
  assert.deepEqual({ session, verdict, linesEnd }, { session: 2, verdict: "conforms", linesEnd: 1 });
});

const SESSION = { schedule: 'clients 1\nedit 0 ["a"]\n', lines: [{ at: 1, document: "a" }] };

test("conformMany: all conform, with what was compared of all, or there is none", () => {
  const read = { schedule: "clients 1\nread 0", lines: '{"at":1,"document":""}' };
  const all = conformMany(new Set([SESSION, read, { ...SESSION }]));
  assert.deepEqual([all.verdict, all.conforms, all.sessions, all.compared.document, all.unknown], ["conforms", true, 3, 3, []]);
  const none = conformMany([]);
  assert.deepEqual([none.verdict, none.conforms, none.sessions, none.unknown], ["nothing compared", false, 0, []]);
  const longer = { schedule: 'clients 1\nedit 0 ["a"]\ntake 0\n', lines: SESSION.lines };
  assert.equal(conformMany([SESSION, longer], { sparse: true }).conforms, true);
  assert.deepEqual([conformMany([SESSION, longer]).session, conformMany([longer]).key], [2, "line"]);
});

test("conformMany: the first that does not conform is that of conform, with its number and its text", () => {
  const wrong = { schedule: '; client 0 is ann\nclients 1\nedit 0 ["a"]', lines: [{ at: 1, document: "b", docment: 1 }] };
  const { text, ...alone } = conform(wrong.schedule, wrong.lines);
  assert.match(text, /^differs at 1: /);
  assert.deepEqual(conformMany([SESSION, SESSION, wrong, wrong]), { ...alone, session: 3, schedule: `${wrong.schedule}\n` });
});

test("conformMany: unknown keys stand in a session and its line, as does a refused schedule", () => {
  const misspelled = { ...SESSION, lines: [{ at: 1, document: "a", docment: 1 }] };
  assert.deepEqual(conformMany([SESSION, misspelled, SESSION]).unknown, [{ key: "docment", session: 2, line: 4 }]);
  const at = ({ kind, session, line }) => ({ kind, session, line });
  const refusal = (sessions) => {
    try {
      return conformMany(sessions);
    } catch (error) {
      assert.ok(error instanceof otbench.OtbenchError);
      return at(error);
    }
  };
  assert.deepEqual(refusal([SESSION, { schedule: "clients 1\n\nedti 0\n", lines: [] }]), { kind: "UnknownWord", session: 2, line: 3 });
  assert.deepEqual(at(refusal([SESSION])), { kind: undefined, session: undefined, line: undefined });
});

test("conformMany: a line `%%` of a session's own ends no session", () => {
  const marked = { ...SESSION, lines: '%%\n{"at":1,"document":"b"}\n' };
  const { text, ...alone } = conform(marked.schedule, marked.lines);
  assert.equal(alone.conforms, false, text);
  assert.deepEqual(conformMany([SESSION, marked, SESSION]), { ...alone, session: 2, schedule: SESSION.schedule });
  assert.throws(() => conformMany([SESSION, { schedule: "clients 1\n%%\nread 0\n", lines: [] }]), { kind: "UnknownWord", line: 2 });
});

test("conform: nothing conforms where the schedule is cut; a name and the unknown keys are values", () => {
  const schedule = (more = "") => `; client 0 is ann\nclients 1\nedit 0 ["a"]\n${more}`;
  const cut = schedule('; cut: "ann, event 9: ack"\n');
  const agreed = conform(cut, [{ at: 1, document: "a" }]);
  assert.deepEqual([agreed.verdict, agreed.conforms, agreed.cut, agreed.compared.document], ["conforms", false, '"ann, event 9: ack"', 1]);
  assert.match(agreed.text, /^conforms\n[^]*\nthe schedule ends before its logs: "ann, event 9: ack"\n$/);
  const differs = conform(cut, [{ at: 1, document: "b" }]);
  assert.deepEqual([differs.client, differs.name, differs.key, differs.place, differs.cut], [0, "ann", "document", 0, '"ann, event 9: ack"']);
  assert.equal(conform(schedule('; cut: "a\\u202eb"\n'), [{ at: 1, document: "a" }]).cut, '"a\\u202eb"');
  assert.ok(!("cut" in conform(schedule(), [{ at: 1, document: "a" }])));
  const unknown = conform(schedule(), [{ at: 1, document: "b", docment: 1, "a b": 2, constructor: 3 }]);
  assert.deepEqual(unknown.unknown, ["a b", "constructor", "docment"].map((key) => ({ key, line: 5 })));
  assert.deepEqual([unknown.place, unknown.note], [0, null]);
  assert.match(unknown.text, /\nunknown "a b" in line 5\nunknown constructor in line 5\nunknown docment in line 5\n$/);
});

test("conform: a key that steps does not have is named, with sparse and without it, and does not count", () => {
  const schedule = 'clients 1\nedit 0 ["a"]\n';
  for (const sparse of [false, true]) {
    const said = (line) => conform(schedule, [{ at: 1, ...line }], { sparse });
    const unknown = [{ key: "docment", line: 4 }];
    const rows = [
      [{ client: 0, docment: "WRONG" }, ["nothing compared", false, unknown]],
      [{ client: 0 }, ["nothing compared", false, []]],
      [{ document: "a", docment: "WRONG" }, ["conforms", true, unknown]],
      [{ document: "b", docment: "WRONG" }, ["differs", false, unknown]],
    ];
    for (const [line, wanted] of rows) {
      const { verdict, conforms, unknown: named } = said(line);
      assert.deepEqual([verdict, conforms, named], wanted, JSON.stringify([line, sparse]));
    }
  }
});

test("conform: a line of another form says so, and no rule of ot.js is blamed", () => {
  const NOTES = { object: "the line is no JSON object", none: 'the line has no "at"', number: '"at" is no whole number from 0 on' };
  const rows = { "[]": "object", 3: "object", null: "object", "at Client.applyServer (client.js:7)": "object", "{}": "none", '{"client":0}': "none", '{"__proto__":{"at":1}}': "none", '{"at":-1}': "number", '{"at":1.5}': "number", '{"at":"1"}': "number", '{"at":18446744073709551616}': "number" };
  for (const [given, kind] of Object.entries(rows)) {
    for (const sparse of [false, true]) {
      const { key, rule, note, found, line } = conform('clients 1\nedit 0 ["a"]\n', [given], { sparse });
      assert.deepEqual({ key, rule, note, found, line }, { key: "line", rule: null, note: NOTES[kind], found: JSON.stringify(given), line: 2 });
    }
  }
});

test("conform: where a limit of otbench ends the schedule", () => {
  const text = `clients 1\nedit 0 [${JSON.stringify("a".repeat(15_000))}]\nedit 0 [15000,"b"]\n`;
  const lines = [{ at: 1 }, { at: 2 }];
  const { verdict, conforms, at, line, refusal } = conform(text, lines);
  assert.deepEqual({ verdict, conforms, at, line, refusal }, { verdict: "stopped", conforms: false, at: 1, line: 3, refusal: "ClientFull" });
});

test("lines: counted with comments, blank lines and the opening, as bytes too, and none in an image", () => {
  const text = '; a note\r\n\nclients 2\r\n start "a"\n; another\n\tedit  01 [1,"b"]\r\n\ntake 0\n';
  for (const given of [text, Buffer.from(text)]) {
    assert.deepEqual(run(given).stopped, { at: 1, line: 8, refusal: "LinkEmpty" });
    assert.deepEqual(check(given).stopped, { at: 1, line: 8, refusal: "LinkEmpty" });
    assert.equal(conform(given, [{ at: 1, document: "b" }]).line, 6);
  }
  assert.deepEqual(run(assemble(text), { image: true }).stopped, { at: 1, line: null, refusal: "LinkEmpty" });
});

test("lines: of the opening none, of the end the last one performed, and of a refused instruction its own", () => {
  const text = 'clients 1\nedit 0 ["a"]\ntake 0\ntake 0\n';
  const lineOf = (...lines) => {
    const { at, line, instruction, key } = conform(text, lines);
    return [`${at}: ${instruction}: ${key}`, line];
  };
  const [first, second] = [{ at: 1 }, { at: 2 }];
  const stop = { at: 2, do: "take", stopped: "x" };
  assert.deepEqual(lineOf({ at: 0, clients: 2 }), ["0: opening: clients", null]);
  assert.deepEqual(lineOf(first), ["2: take 0: line", 3]);
  assert.deepEqual(lineOf(first, { at: 2, stopped: "x" }), ["2: take 0: stopped", 3], "ot.js performs the first of them");
  assert.deepEqual(lineOf(first, second), ["2: take 0: line", 4], "and refuses the second one");
  assert.deepEqual(lineOf(first, second, { at: 3 }), ["2: take 0: stopped", 4]);
  assert.deepEqual(lineOf(first, second, stop, { at: 2, end: "quiet" }), ["2: end: end", 3]);
  assert.deepEqual(lineOf(first, second, stop, { at: 2, end: "not quiet" }, { at: 9 }), ["2: after the end: line", 3]);
  assert.equal(conform("clients 1\n", [{ at: 0 }, { at: 0, end: "not quiet" }]).line, null);
});

test("check: quiet, and what is waited for", () => {
  assert.deepEqual(check(example("weak-order.ots")), { stopped: null, quiet: true, waits: null, property: "holds" });
  const edited = 'clients 2\nedit 0 ["a"]\n';
  assert.deepEqual(check(edited).waits, { what: "client", client: 0 });
  assert.deepEqual(check(`${edited}take 0\nack 0\n`).waits, { what: "down", client: 1 });
  assert.deepEqual(check(`${edited}join 1\n`).stopped, { at: 1, line: 3, refusal: "AlreadyJoined" });
  const all = check(`${edited}take 0\njoin 1\n`, { all: true });
  const unsettled = [{ what: "client", client: 0 }, { what: "down", client: 0 }, { what: "down", client: 1 }];
  assert.deepEqual(all, { stopped: { at: 2, line: 4, refusal: "AlreadyJoined" }, quiet: false, waits: unsettled[0], property: "holds", unsettled });
  assert.deepEqual(check(example("weak-order.ots"), { all: true }).unsettled, []);
});

test("judge: each verdict, from a value and from a text", () => {
  const verdict = (name) => judge(example(name)).violation;
  assert.deepEqual(judge(JSON.parse(example("weak-order.json"))), { holds: true, violation: null });
  assert.deepEqual(verdict("reversed.json"), { kind: "reversed", events: [2, 4], tags: [[0, 0], [1, 0]] });
  assert.deepEqual(verdict("bad-visibility.json"), { kind: "bad-visibility", events: [0], tags: [] });
  assert.deepEqual(verdict("missing.json"), { kind: "missing", events: [1], tags: [[0, 0]] });
  assert.deepEqual(verdict("extra.json"), { kind: "extra", events: [1], tags: [[0, 0]] });
  assert.deepEqual(verdict("wrong-place.json"), { kind: "wrong-place", events: [0], tags: [[0, 0]] });
});

test("complete: what brings a session to quiet behind it, or the refusal that stands in the way", () => {
  const text = 'clients 2\nedit 0 ["a"]\n';
  assert.equal(complete(text), `${text}take 0\nack 0\ndeliver 1\n`);
  const isRefused = ({ kind, line, message }) => kind === "LinkEmpty" && line === 2 && message === "stopped at 0: LinkEmpty";
  assert.throws(() => complete("clients 1\ntake 0\n"), isRefused);
});

test("assemble, disassemble: the image of the documents, and the canonical text", () => {
  const text = 'clients 1\nstart "a"\nedit 0 [1,"b"]\nread-server\n';
  const image = assemble(`; a comment\n${text}`);
  const bytes = "4f545332 0001 0001 00000001 00000061 00000002 01 0000 00000002 10 00000001 11 00000001 00000062 06";
  assert.ok(image instanceof Uint8Array);
  assert.equal(Buffer.from(image).toString("hex"), bytes.replaceAll(" ", ""));
  assert.equal(disassemble(image), text);
  assert.deepEqual(Buffer.from(assemble(example("late-join.ots"))), fs.readFileSync(`${TOP}examples/late-join.img`));
});

test("generate: a session of the seed, as it is asked for", () => {
  const text = generate({ seed: 7, clients: 3, present: 2, instructions: 40, start: '-é"\n' });
  assert.match(text, /^clients 3\npresent 2\nstart "-é\\"\\n"\n/);
  assert.equal(text, generate({ seed: 7, clients: 3, present: 2, instructions: 40, start: '-é"\n' }));
  assert.equal(run(text).quiet, true);
  assert.equal(text.trimEnd().split("\n").filter((line) => line.startsWith("read")).at(-1), "read-server");
  const open = generate({ instructions: 2, open: true });
  assert.equal(open.trimEnd().split("\n").filter((line) => !/^(clients|present|start)/.test(line)).length, 2);
  assert.equal(generate(), generate({ seed: 1, clients: 4, instructions: 60, open: false, start: undefined }));
});

test("serve: words, bytes and the status, whatever it is", () => {
  const text = (bytes) => Buffer.from(bytes).toString();
  const { status, output, errors } = serve(["run"], "clients 1\nbogus\n");
  assert.deepEqual([status, text(output), text(errors)], [1, "", "otbench: line 2: UnknownWord\n"]);
  assert.equal(serve(["bogus"]).status, 2);
  assert.match(text(serve(["--help"]).errors), /^A proved test bench/);
});

test("an engine that the caller has compiled; calls share nothing", () => {
  const bench = benchOf(new WebAssembly.Module(fs.readFileSync(`${TOP}engine/out/otbench.wasm`)));
  assert.deepEqual(Object.keys(bench).sort(), Object.keys(otbench).filter((it) => !/^(benchOf|[A-Z].*)$/.test(it)).sort());
  assert.deepEqual(bench.run(example("two-clients.ots")), TWO_CLIENTS);
  assert.deepEqual(bench.run("clients 1\n").clients, [{ revision: 0, state: "synchronized", document: "" }]);
});
