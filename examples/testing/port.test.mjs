// Tests of a port of ot.js by node's test runner: node --test port.test.mjs
//
// In a project of your own the first import is from "otbench/testing", and the port is yours.

import assert from "node:assert/strict";
import { test } from "node:test";
import { compare, conforms } from "../../ports/testing.mjs";
import { makePort } from "../../oracle/otjs.js";
import { bugs } from "../port/bugs.js";

const { TextOperation, Client, Server } = makePort();

test("the port is ot.js, over the corpus and 100 sessions made at random", async () => {
  const { compared } = await conforms({ TextOperation, Client, Server }, { sessions: 100, seed: 7 });
  assert.ok(compared.buffer > 0 && compared.sent > 0);
});

test("one session", async () => {
  const session = 'clients 2\nstart "ab"\nedit 0 [1,"x",1]\nedit 1 [1,"y",1]\ntake 0\ntake 1\ndeliver 1\nack 1\nread 1\n';
  assert.equal((await compare({ TextOperation, Client, Server }, session)).verdict, "conforms");
});

test("a port whose ties are broken the other way is found, and the session has a few instructions", async () => {
  const port = makePort();
  bugs.tie(port);
  await assert.rejects(conforms(port), /reduced to [3-6]\n[^]*that is what transform gives if the text of its second argument goes first/);
});
