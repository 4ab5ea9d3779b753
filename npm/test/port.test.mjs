// otbench/testing: what a port has to have is looked for before the first session, and each part that is not there is named.

import assert from "node:assert/strict";
import { test } from "node:test";
import { makePort } from "../../oracle/otjs.js";
import { compare, conforms, drive } from "../../ports/testing.mjs";

const SESSION = 'clients 2\nstart "ab"\nedit 0 [1,"x",1]\nedit 0 [3,"z"]\nedit 1 [1,"y",1]\ntake 0\ntake 1\ndeliver 1\nack 0\nack 1\ndeliver 0\ntake 0\nread 1\n';

/* The parts that the error names; the port is not driven. */
async function missing(port, options) {
  const error = await conforms(port, options).then(() => assert.fail("it was tried"), (thrown) => thrown);
  assert.equal(error.name, "TypeError", String(error.stack));
  const [first, ...parts] = error.message.trimEnd().split("\n");
  assert.equal(first, "the port lacks");
  return parts.map((part) => part.trim());
}

/* ot.js without one thing. */
function without(take) {
  const port = makePort();
  take(port);
  return port;
}

const TAKEN = [
  ["TextOperation", (port) => delete port.TextOperation],
  ["Client", (port) => delete port.Client],
  ["Server", (port) => (port.Server = {})],
  ...["toJSON", "apply", "compose", "invert"].map((name) => [`TextOperation.prototype.${name}`, ({ TextOperation }) => delete TextOperation.prototype[name]]),
  ["TextOperation.transform", ({ TextOperation }) => delete TextOperation.transform],
  ...["applyClient", "applyServer", "serverAck"].map((name) => [`Client.prototype.${name}`, ({ Client }) => delete Client.prototype[name]]),
  ["Server.prototype.receiveOperation", ({ Server }) => delete Server.prototype.receiveOperation],
];

test("each part that is not there is named", async () => {
  for (const [part, take] of TAKEN) assert.deepEqual(await missing(without(take)), [part]);
});

test("all are named at once, and a port of empty classes does not pass", async () => {
  assert.deepEqual(await missing({}), ["TextOperation", "Client", "Server"]);
  assert.deepEqual(await missing(undefined), ["TextOperation", "Client", "Server"]);
  const parts = await missing({ TextOperation: class {}, Client: class {}, Server: class {} }, { corpus: false });
  assert.ok(parts.includes("TextOperation.fromJSON, or TextOperation.prototype.retain, insert and delete"), parts.join("\n"));
  for (const part of ["Client.prototype.applyClient", "Server.prototype.receiveOperation"]) assert.ok(parts.includes(part), part);
});

test("values that are not where ot.js has them are named, and so is a method that cannot be assigned", async () => {
  const { Client, Server, TextOperation } = makePort();
  class Elsewhere extends Client {
    constructor(revision) {
      super(revision);
      delete this.state;
      Object.freeze(this);
    }
  }
  class Texts extends Server {
    constructor(text) {
      super(text);
      this.document = { text };
      this.operations = undefined;
    }
  }
  const parts = await missing({ TextOperation, Client: Elsewhere, Server: Texts });
  assert.deepEqual(parts.map((part) => part.replace(/: .*/, "")), [
    "Client",
    "Client",
    "Client's outstanding, none in new Client(0)",
    "Client's buffer, none in new Client(0)",
    'Server\'s document, "a" in new Server("a")',
    'Server\'s operations, a list in new Server("a")',
  ]);
  assert.match(parts[0], /sendOperation/);
  assert.match(parts[2], /throws TypeError/);
});

test("a constructor that throws is named with what it throws", async () => {
  const { TextOperation, Client } = makePort();
  const Server = class {
    constructor() {
      throw new RangeError("no server here");
    }
  };
  assert.deepEqual(await missing({ TextOperation, Client, Server }), ['Server: new Server("a") throws RangeError: no server here']);
});

test("`compare` and `drive` look for the parts too", async () => {
  await assert.rejects(compare({}, SESSION), TypeError);
  await assert.rejects(drive({}, SESSION), TypeError);
});

test("a port with the builder alone conforms", async () => {
  const port = without(({ TextOperation }) => delete TextOperation.fromJSON);
  assert.equal((await compare(port, SESSION)).verdict, "conforms");
});

test("a port that has its values elsewhere is read by accessors", async () => {
  const { TextOperation, Client: Original, Server: OriginalServer } = makePort();
  class Client {
    #own;
    constructor(revision) {
      this.#own = new Original(revision);
      this.#own.sendOperation = (...given) => this.sendOperation(...given);
      this.#own.applyOperation = (operation) => this.applyOperation(operation);
    }
    applyClient(operation) {
      this.#own.applyClient(operation);
    }
    applyServer(operation) {
      this.#own.applyServer(operation);
    }
    serverAck() {
      this.#own.serverAck();
    }
    shown() {
      return this.#own;
    }
  }
  class Server {
    constructor(text) {
      this.held = new OriginalServer(text);
    }
    receiveOperation(revision, operation) {
      return this.held.receiveOperation(revision, operation);
    }
  }
  const accessors = {
    revision: (client) => client.shown().revision,
    outstanding: (client) => client.shown().state.outstanding,
    buffer: (client) => client.shown().state.buffer,
    document: (server) => server.held.document,
    operations: (server) => server.held.operations,
  };
  assert.equal((await missing({ TextOperation, Client, Server })).length, 5);
  assert.equal((await compare({ TextOperation, Client, Server }, SESSION, { accessors })).verdict, "conforms");
});
