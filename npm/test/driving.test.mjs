// otbench/testing: the harness' own state stands beside the port's objects, what the port answers later is awaited, and what it throws is kept.

import assert from "node:assert/strict";
import { test } from "node:test";
import { setTimeout } from "node:timers/promises";
import { makePort } from "../../oracle/otjs.js";
import { compare, conforms } from "../../ports/testing.mjs";

const SESSION = 'clients 2\nstart "ab"\nedit 0 [1,"x",1]\nedit 0 [3,"z"]\nedit 1 [1,"y",1]\ntake 0\ntake 1\ndeliver 1\nack 0\nack 1\ndeliver 0\ntake 0\nread 1\n';

/* ot.js whose client or server does something else at a method. `otherwise` is given the method. */
function changed(part, method, otherwise) {
  const port = makePort();
  const own = port[part].prototype[method];
  port[part].prototype[method] = otherwise(own);
  return port;
}

test("a port's own document, links, number and awaits are its own", async () => {
  const { TextOperation, Client: Original, Server } = makePort();
  class Client extends Original {
    document = "its own";
    down = null;
    number = "one";
    awaits = true;
    shown = 7;
    get up() {
      return "its own";
    }
  }
  assert.equal((await compare({ TextOperation, Client, Server }, SESSION)).verdict, "conforms");
});

test("a client and a server that answer by promises conform", async () => {
  const { TextOperation, Client: Original, Server: OriginalServer } = makePort();
  class Client extends Original {
    async applyClient(operation) {
      await setTimeout(1);
      super.applyClient(operation);
    }
    async applyServer(operation) {
      await null;
      super.applyServer(operation);
    }
    async serverAck() {
      await setTimeout(1);
      super.serverAck();
    }
  }
  class Server extends OriginalServer {
    async receiveOperation(revision, operation) {
      await setTimeout(1);
      return super.receiveOperation(revision, operation);
    }
  }
  assert.equal((await compare({ TextOperation, Client, Server }, SESSION)).verdict, "conforms");
});

test("a client that sends in a microtask conforms", async () => {
  const port = makePort();
  const { applyClient } = port.Client.prototype;
  port.Client.prototype.applyClient = function (operation) {
    const send = this.sendOperation;
    this.sendOperation = (...given) => void Promise.resolve().then(() => Promise.resolve()).then(() => send(...given));
    applyClient.call(this, operation);
    this.sendOperation = send;
  };
  assert.equal((await compare(port, SESSION)).verdict, "conforms");
});

/* A client that sends what it is told to behind its own method. */
const sending = (method, send) => changed("Client", method, (own) => function (operation) {
  own.call(this, operation);
  send(this, operation);
});

test("a client that sends twice or too early is told so", async () => {
  const told = async (port) => JSON.parse((await compare(port, SESSION)).found);
  const twice = sending("applyClient", (client, operation) => client.state.buffer || client.sendOperation(client.revision, operation));
  assert.equal(await told(twice), "sendOperation was called twice in one instruction");
  const early = sending("applyClient", (client, operation) => client.state.buffer && client.sendOperation(client.revision, operation));
  assert.equal(await told(early), "sendOperation was called before the message under way was acknowledged");
});

test("a client that sends when another one acts is told so", async () => {
  const port = makePort();
  const clients = [];
  const { applyClient } = port.Client.prototype;
  port.Client.prototype.applyClient = function (operation) {
    clients.push(this);
    applyClient.call(this, operation);
    if (clients.length > 1) clients[0].sendOperation(0, operation);
  };
  const answer = await compare(port, 'clients 2\nedit 0 ["a"]\nedit 1 ["b"]\n');
  assert.equal(JSON.parse(answer.found), "sendOperation was called when its client had nothing to do");
});

/* A client that makes of a message what it applies, or of what it sent what is outstanding then. */
const CHANGED_IN_PLACE = {
  received: (own) => function (operation) {
    const apply = this.applyOperation;
    this.applyOperation = (applied) => apply.call(this, Object.assign(operation, applied));
    own.call(this, operation);
    this.applyOperation = apply;
  },
  sent: (own) => function (operation) {
    const { outstanding } = this.state;
    own.call(this, operation);
    if (outstanding) Object.assign(outstanding, this.state.outstanding);
  },
};

test("each message is an operation of its own, as over a wire: a client may change it in place", async () => {
  for (const [whose, otherwise] of Object.entries(CHANGED_IN_PLACE)) {
    const port = changed("Client", "applyServer", otherwise);
    assert.equal((await conforms(port, { corpus: false, every: 0, sessions: 5 })).sessions, 5, whose);
    assert.equal((await compare(port, SESSION)).verdict, "conforms", whose);
  }
});

test("a server that changes its own log is told so", async () => {
  const port = changed("Server", "receiveOperation", (own) => function (revision, operation) {
    const appended = own.call(this, revision, operation);
    if (this.operations.length > 1) Object.assign(this.operations.at(-2), appended);
    return appended;
  });
  const error = await conforms(port, { corpus: false, every: 0, sessions: 5, reduceSeconds: 1 }).then(() => assert.fail("it conforms"), (thrown) => thrown);
  assert.match(error.kind, /^Server\.receiveOperation: /);
});

test("a server that gives no operation is told so", async () => {
  const port = changed("Server", "receiveOperation", (own) => function (revision, operation) {
    own.call(this, revision, operation);
  });
  assert.equal((await compare(port, SESSION)).found, '"receiveOperation gave no operation"');
});

test("what a port throws is the error's cause, with its stack", async () => {
  const throws = changed("Server", "receiveOperation", () => function noReceiver() {
    throw new RangeError("no receiver");
  });
  const error = await conforms(throws, { sessions: 1 }).then(() => assert.fail("it conforms"), (thrown) => thrown);
  assert.ok(error.cause instanceof RangeError);
  assert.match(error.cause.stack, /noReceiver/);
  assert.match(error.answer.key, /stopped/);
  assert.equal(error.answer.found, '"no receiver"');
});

test("a promise that is refused is what the port throws; so is a value that is no error", async () => {
  const refused = changed("Server", "receiveOperation", () => async () => {
    throw "not now";
  });
  const error = await conforms(refused, { sessions: 1 }).then(() => assert.fail("it conforms"), (thrown) => thrown);
  assert.equal(error.cause, "not now");
  assert.equal(error.answer.found, '"not now"');
  for (const value of [null, undefined, 0]) {
    const port = changed("Client", "serverAck", () => () => {
      throw value;
    });
    assert.equal((await compare(port, SESSION)).found, JSON.stringify(String(value)));
  }
});

test("state that an earlier session left is told as such, with that session, and no method is accused", async () => {
  const { TextOperation, Client, Server: Own } = makePort();
  const log = [];
  function Server(document) {
    return new Own(document, log);
  }
  const port = { TextOperation, Client, Server };
  const error = await conforms(port, { corpus: false, every: 0, sessions: 3 }).then(() => assert.fail("it conforms"), (thrown) => thrown);
  assert.equal(error.kind, "port: state is left from an earlier session");
  assert.match(error.message, /; the last of 2 in one process\n\nclients 4\n(.*\n)*%%\nclients 4\n(start .*\n)?\nstate is left from an earlier session: a new Server has a log of \d+\nthe schedule is the error's `schedule`/);
  assert.doesNotMatch(error.message, /replay|rule/);
  await assert.rejects(compare(port, SESSION), { message: `state is left from an earlier session: a new Server has a log of ${log.length}` });
});

test("a client that begins with the state of another one is told as such", async () => {
  const { TextOperation, Client: Own, Server } = makePort();
  const state = {};
  const Client = class extends Own {
    get state() {
      return state.kept ?? this.first;
    }
    set state(its) {
      if (this.first) state.kept = its;
      else this.first = its;
    }
  };
  await compare({ TextOperation, Client, Server }, 'clients 1\nedit 0 ["a"]\n');
  await assert.rejects(compare({ TextOperation, Client, Server }, SESSION), /^Error: state is left from an earlier session: a new Client has an outstanding operation$|Client's outstanding/);
});
