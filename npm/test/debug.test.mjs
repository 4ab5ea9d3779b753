// The debugger as an object.

import assert from "node:assert/strict";
import { readFileSync } from "node:fs";
import { test } from "node:test";
import { OtbenchError, commands, openDebugger } from "../debug.mjs";

const TIE = 'clients 2\nedit 0 ["a b"]\nedit 1 ["b"]\ntake 0\ndeliver 1\n';

test("each command is a method that returns lines", () => {
  const session = openDebugger(TIE);
  assert.equal(session.end, 4);
  assert.match(session.find("a b").at(-1), /^client 0 doc: "a b" nowhere -> once$/);
  assert.equal(session.place, 1);
  session.goto("end");
  assert.equal(session.who(1, 1)[0], '"a" at 1 of the document of client 1');
  assert.deepEqual(session.undo(), session.perform("step 0"));
  assert.match(session.help("who")[0], /^who C\|server N: /);
  assert.match(session.perform("constructor")[0], /^there is no constructor/);
  assert.deepEqual(session.complete("bl"), ["blame"]);
  for (const name of Object.keys(commands)) assert.equal(typeof session[name], "function", name);
});

test("each method has a type", () => {
  const types = readFileSync(new URL("../debug.d.ts", import.meta.url), "utf8");
  for (const name of Object.keys(commands)) assert.match(types, new RegExp(`^  ${name}\\(`, "m"));
});

test("why says which transform decided", () => {
  const said = openDebugger(TIE).why(3);
  assert.deepEqual(said.slice(2), ["  AwaitingConfirm.applyServer", '    transform(outstanding ["b"], operation ["a b"]) makes ["b",3] and [1,"a b"]', '      tie at 0: "b", of the first argument, goes before "a b"']);
  assert.equal(openDebugger(TIE).why(3, "walk")[4], '      0   "b"  -      "b"  1      tie: A goes first');
});

test("a port's lines stand beside it", () => {
  const session = openDebugger(TIE, { port: '{"at":1,"document":"x"}\n' });
  assert.match(session.run().join("\n"), /differs at 1/);
});

test("of a sparse port the instructions without a line are not compared", () => {
  const port = '{"at":4,"document":"x"}\n';
  assert.match(openDebugger(TIE, { port }).run().join("\n"), /differs at 1/);
  assert.match(openDebugger(TIE, { port, sparse: true }).run().join("\n"), /differs at 4/);
});

test("info says what made an operation, and find searches a port's documents", () => {
  const session = openDebugger(TIE, { port: '{"at":1,"document":"a b"}\n{"at":2,"document":"c"}\n' });
  assert.equal(session.find("port", "c").at(-1), 'client 1 doc of the port: "c" nowhere -> once');
  assert.equal(session.place, 2);
  assert.deepEqual(session.info("outstanding", 1), ['client 1 outstanding: ["b"]; made of 1 edit', '  made and sent by line 3, instruction 1: edit 1 ["b"]']);
  assert.deepEqual(session.info("buffer", 1), ["none"]);
  assert.match(session.rfind("port", "a b").at(-1), /^client 0 doc of the port: "a b" nowhere -> once$/);
});

test("a refused text, and an option that is none, are errors", () => {
  assert.throws(() => openDebugger("clients 1\nedti\n"), (fault) => fault instanceof OtbenchError && fault.kind === "UnknownWord" && fault.line === 2);
  assert.throws(() => openDebugger(TIE, { prot: "" }), (fault) => fault.kind === "Usage" && /no option prot/.test(fault.message));
  assert.throws(() => openDebugger(TIE, { port: 3 }), /the port's lines is no string and no Uint8Array/);
  assert.throws(() => openDebugger(TIE).perform(3), OtbenchError);
});
