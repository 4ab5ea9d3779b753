// What is refused: the kind, and the line or byte.

import assert from "node:assert/strict";
import { test } from "node:test";
import { engineBytes } from "../engine.mjs";
import { assemble, conform, disassemble, explain, generate, judge, OtbenchError, run, serve, steps } from "../otbench.mjs";

const many = (count, line) => `${line}\n`.repeat(count);

function refused(call, kind, { line = null, byte = null } = {}, message = /./) {
  assert.throws(call, (error) => {
    assert.ok(error instanceof OtbenchError && error instanceof Error);
    assert.deepEqual([error.name, error.kind, error.line, error.byte], ["OtbenchError", kind, line, byte]);
    assert.match(error.message, message);
    return true;
  });
}

/* Of each kind of fault of a text one, and its line. */
const TEXTS = [
  ["BadText", 2, "clients 1\n; \ud800\n"],
  ["NoClients", 1, ""],
  ["NoClients", 1, "edit 0 []\n"],
  ["UnknownWord", 2, "clients 1\nbogus\n"],
  ["BadNumber", 1, "clients one\n"],
  ["BadClient", 3, "clients 1\n\nread 1\n"],
  ["BadText", 2, "clients 1\nstart a\n"],
  ["BadOperation", 2, "clients 1\nedit 0 [0]\n"],
  ["Extra", 2, "clients 1\nread 0 0\n"],
  ["TooLong", 2, `clients 1\nstart "${"a".repeat(40_001)}"\n`],
  ["TooMany", 100_002, `clients 1\n${many(100_001, "read 0")}`],
];

for (const [kind, line, text] of TEXTS)
  test(`a text: ${kind} at line ${line}`, () => {
    for (const call of [run, steps, assemble, explain]) refused(() => call(text), kind, { line }, new RegExp(`^line ${line}: ${kind}`));
  });

const hex = (digits) => Buffer.from(digits.replaceAll(" ", ""), "hex");

/* Of each kind of fault of an image one, and its byte. */
const IMAGES = [
  ["Cut", 3, "4f5453"],
  ["BadMagic", 0, "4f545331 0001".replace("31", "39")],
  ["BadNumber", 4, "4f545332 0041 0000 00000000 00000000"],
  ["TooLong", 8, "4f545332 0001 0001 00009c41"],
  ["TooMany", 12, "4f545332 0001 0001 00000000 000186a1"],
  ["BadScalar", 12, "4f545332 0001 0001 00000001 0000d800 00000000"],
  ["BadOpcode", 16, "4f545332 0001 0001 00000000 00000001 09"],
  ["BadClient", 17, "4f545332 0001 0001 00000000 00000001 05 0001"],
  ["NotNormal", 32, "4f545332 0001 0001 00000001 00000061 00000001 01 0000 00000002 10 00000001 10 00000001"],
  ["Trailing", 16, "4f545332 0001 0001 00000000 00000000 00"],
];

for (const [kind, byte, digits] of IMAGES)
  test(`an image: ${kind} at byte ${byte}`, () => {
    refused(() => disassemble(hex(digits)), kind, { byte }, new RegExp(`^byte ${byte}: ${kind}$`));
    refused(() => run(hex(digits), { image: true }), kind, { byte });
  });

test("a trace: neither line nor byte", () => {
  refused(() => judge("x"), "NotJson");
  refused(() => judge({}), "BadShape");
  refused(() => judge({ replicas: 1, start: [[0, 0], [0, 0]], events: [] }), "TagTwice");
  refused(() => judge({ replicas: 1, start: [], events: Array(4001).fill({ replica: 0, kind: "read", seen: [0], list: [] }) }), "TraceFull");
});

test("explain says where a fault stands, what stands there and what is wanted", () => {
  const call = () => explain('clients 1\nedit 0 ["a"] ; Ann\n');
  refused(call, "BadOperation", { line: 2 }, /^line 2: BadOperation\n {2}line 2, column 14: found ";"; wanted an operation, such as \[1,"a",-2\]; a comment stands on a line of its own$/);
});

test("explain says of a trace where its first fault is", () => {
  const told = (trace) => () => explain(trace, { form: "trace" });
  refused(told({ replicas: 1, start: [[0]], events: [] }), "BadShape", {}, /^BadShape\n {2}start\[0\]: found \[0\]; wanted an array \[origin, serial\]$/);
  refused(told({ replicas: 1, start: [[0, 0], [0, 0]], events: [] }), "TagTwice", {}, /^TagTwice\n {2}the tag 0:0 stands at start\[0\] and at start\[1\];/);
  refused(told('{"replicas":1,}'), "NotJson", {}, /^NotJson\n {2}line 1, column 15: a key is missing behind the last comma$/);
  refused(() => explain("clients 1\n", { form: "bogus" }), "Usage", {}, /^unexpected argument '--bogus' found/);
});

test("explain says what a plan is, and of one that is refused where its first fault is", () => {
  const action = { at: 0, insert: "a" };
  assert.equal(explain({ clients: 2, workers: 1, typing: [[action], []] }, { form: "plan" }), "a plan: 2 clients, 1 worker, 1 action of typing\n");
  const ignored = '{"clients":1,"workers":1,"typing":[[{"at":0,"text":"a","__proto__":1}]],"a\u202e<b>":2}';
  const [, ...lines] = explain(ignored, { form: "plan" }).split("\n");
  const ofAction = (key) => `ignored "${key}" in typing[0][0]; an action has at, delete and insert`;
  assert.deepEqual(lines, ['ignored "a\u202e<b>" in the plan; a plan has clients, workers, typing, start and present', ofAction("__proto__"), ofAction("text"), ""]);
  const told = (plan) => () => explain(plan, { form: "plan" });
  refused(told({ clients: 1, workers: 1, typing: [[{ ...action, insert: 7 }]] }), "BadShape", {}, /^BadShape\n {2}typing\[0\]\[0\], insert: found 7; wanted a text$/);
  refused(told({ clients: 1, workers: 9, typing: [[]] }), "BadNumber", {}, /^BadNumber\n {2}workers: found 9; wanted a number from 1 to 8$/);
  refused(told('{"clients":1,}'), "NotJson", {}, /^NotJson\n {2}line 1, column 14: a key is missing behind the last comma$/);
});

test("explain tells the run of an image, and of bytes that are none which field is wrong", () => {
  const image = assemble('clients 1\n; a comment\nedit 0 ["a"]\n');
  assert.equal(explain(image, { form: "image" }), explain('clients 1\nedit 0 ["a"]\n'));
  const told = (bytes) => () => explain(bytes, { form: "image" });
  refused(told(image.subarray(0, 5)), "Cut", { byte: 5 }, /^byte 5: Cut\n {2}clients: found 1 of 2 bytes$/);
  refused(told(image.with(5, 65)), "BadNumber", { byte: 4 }, /^byte 4: BadNumber\n {2}clients: found 65; wanted a number from 1 to 64$/);
});

test("a schedule with a line %% is refused by conform as by run, and takes no line of the port's", () => {
  refused(() => conform("clients 1\n \t%% \r\nread 0\n", []), "UnknownWord", { line: 2 });
  refused(() => conform("bogus\n%%\n", []), "NoClients", { line: 1 });
  assert.equal(conform('clients 1\nstart "%%"\n; %%\nread 0\n', [{ at: 1, document: "%%" }]).verdict, "conforms");
});

test("options that are refused, by the program's words", () => {
  refused(() => generate({ clients: 99 }), "Usage", {}, /^invalid value '99' for '--clients <C>': it takes 1 to 64/);
  refused(() => generate({ seed: -1 }), "Usage");
  refused(() => generate({ instruction: 3 }), "Usage", {}, /^unexpected argument '--instruction' found/);
  refused(() => generate({ start: "a\0b" }), "Usage");
  refused(() => serve(["generate", "\ud800"]), "Usage");
});

test("options that a function does not have", () => {
  refused(() => run("clients 1\n", { imgae: true }), "Usage", {}, /^run has no option imgae; its options: image, signal$/);
  refused(() => conform("clients 1\n", "", { all: true }), "Usage", {}, /^conform has no option all; /);
  refused(() => judge({}, { form: "trace" }), "Usage", {}, /^judge has no option form; its options: signal$/);
  refused(() => explain({ replicas: 1 }, { form: "traec" }), "Usage", {}, /^unexpected argument '--traec' found\n\n {2}tip: a similar argument exists: '--trace'/);
  refused(() => generate(5), "Usage", {}, /^generate takes its options as an object, /);
  assert.deepEqual(["clients 1\n"].map(run), [run("clients 1\n", { image: false, signal: undefined })]);
});

test("what is no text and no bytes is a TypeError", () => {
  for (const given of [undefined, null, 7, ["clients 1"], {}]) assert.throws(() => run(given), TypeError);
  assert.throws(() => conform("clients 1\n", undefined), TypeError);
  assert.throws(() => judge(undefined), TypeError);
});

test("where the engine is missing the words that make it are named", () => {
  const none = new URL("nosuch/otbench.wasm", import.meta.url);
  assert.throws(() => engineBytes(none), { message: /^the engine is missing, .*nosuch[/\\]otbench\.wasm: a checkout is no package; \.\/release --pack makes one of it$/ });
});
