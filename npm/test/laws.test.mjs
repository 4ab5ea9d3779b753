// otbench/testing: the laws that no session shows, each by its name.

import assert from "node:assert/strict";
import { test } from "node:test";
import { makePort } from "../../oracle/otjs.js";
import { conforms, laws } from "../../ports/testing.mjs";

const ONE = { corpus: false, sessions: 1 };

/* What is said of the laws that a port breaks. */
const broken = (port, options) => conforms(port, { ...ONE, ...options }).then(() => ({}), (error) => {
  assert.equal(error.code, "ERR_ASSERTION", error.stack);
  assert.ok(error.laws, error.message);
  return error.laws;
});

/* ot.js in which a method is another. */
function changed(part, method, otherwise) {
  const port = makePort();
  const owner = method === "transform" ? port[part] : port[part].prototype;
  owner[method] = otherwise(owner[method]);
  return port;
}

/* A method whose words of refusal are taken for a result. */
const refusesNothing = (result) => (own) => function (...given) {
  try {
    return own.apply(this, given);
  } catch {
    return result(this, ...given);
  }
};

/* Law, part, method, the fault. No session finds it. */
const FAULTS = [
  ["invert", "TextOperation", "invert", (own) => function (text) {
    return own.call(this, text.slice(1) + " ");
  }],
  ["invert", "TextOperation", "invert", () => function () {
    return this;
  }],
  ["isNoop", "TextOperation", "isNoop", () => function () {
    return this.baseLength === this.targetLength;
  }],
  ["equals", "TextOperation", "equals", () => function (other) {
    return this.baseLength === other.baseLength && this.targetLength === other.targetLength && this.ops.length === other.ops.length;
  }],
  ["apply-of-another-length", "TextOperation", "apply", refusesNothing((self, text) => text)],
  ["compose-of-unfit-operations", "TextOperation", "compose", refusesNothing((self) => self)],
  ["transform-of-unfit-operations", "TextOperation", "transform", refusesNothing((self, first, second) => [first, second])],
  ["revision-not-in-the-log", "Server", "receiveOperation", refusesNothing((self, revision, operation) => operation)],
  ["revision-not-in-the-log", "Server", "receiveOperation", (own) => function (revision, operation) {
    return own.call(this, Math.max(revision, 0), operation);
  }],
  ["acknowledgement-when-synchronized", "Client", "serverAck", refusesNothing(() => undefined)],
];

test("ot.js keeps all of them, and they are named in what is given", async () => {
  assert.deepEqual((await conforms(makePort(), ONE)).laws, laws);
  assert.equal(laws.length, 9);
});

test("each law finds its fault, and nothing else does", async () => {
  for (const [law, part, method, otherwise] of FAULTS) {
    const port = changed(part, method, otherwise);
    assert.deepEqual(Object.keys(await broken(port)), [law], law);
    assert.deepEqual(await broken(port, { known: [law] }), {}, `${law}, declined`);
  }
});

test("a server that leaves out the operations that it is given", async () => {
  const port = makePort();
  const { Server } = port;
  port.Server = function (document) {
    return new Server(document);
  };
  assert.deepEqual(Object.keys(await broken(port)), ["server-with-operations"]);
});

test("a method that is not there is named; a port that declines `invert` needs none", async () => {
  const port = makePort();
  for (const method of ["invert", "equals", "isNoop"]) delete port.TextOperation.prototype[method];
  await assert.rejects(conforms(port, ONE), { name: "TypeError", message: /TextOperation\.prototype\.invert$/m });
  const missing = { isNoop: "TextOperation.prototype.isNoop is not there", equals: "TextOperation.prototype.equals is not there" };
  assert.deepEqual(await broken(port, { known: ["invert"] }), missing);
  assert.deepEqual((await conforms(port, { ...ONE, known: ["invert", "equals", "isNoop"] })).laws, laws.filter((law) => !/^(invert|equals|isNoop)$/.test(law)));
});

test("the words of a broken law, and what the port throws over one", async () => {
  const port = changed("TextOperation", "invert", () => () => {
    throw new RangeError("no way back");
  });
  port.TextOperation.prototype.isNoop = () => false;
  const error = await conforms(port, ONE).then(() => assert.fail("it conforms"), (thrown) => thrown);
  assert.deepEqual(error.message.split("\n"), [
    "the port breaks 2 laws of ot.js that no session shows",
    "    invert: the port throws RangeError: no way back",
    "    isNoop: [].isNoop() gives false, that of ot.js true",
    'a port declines a law by its name: { known: ["invert","isNoop"] }',
    "",
  ]);
  assert.ok(error.cause instanceof RangeError);
});

test("refusals by promises are refusals", async () => {
  const port = makePort();
  for (const [part, method] of [["Server", "receiveOperation"], ["Client", "serverAck"]]) {
    const own = port[part].prototype[method];
    port[part].prototype[method] = async function (...given) {
      await null;
      return own.apply(this, given);
    };
  }
  assert.deepEqual(await broken(port), {});
});

test("`invert` counts what the port counts", async () => {
  const codePoints = changed("TextOperation", "invert", (own) => function (text) {
    return own.call(this, [...text].map((it) => it.slice(0, 1)).join(""));
  });
  assert.deepEqual(Object.keys(await broken(codePoints)), ["invert"]);
});

test("a law that is none is refused", async () => {
  await assert.rejects(conforms(makePort(), { known: ["inverse"] }), { kind: "Usage", message: /^known is \["inverse"\]; it takes a list of laws, of invert, isNoop, / });
});
