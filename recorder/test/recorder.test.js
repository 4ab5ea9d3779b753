/* The recorder: what is logged, and that the wrapped methods do what they did. */

import assert from "node:assert/strict";
import { test } from "node:test";
import { makePort } from "../../oracle/otjs.js";
import { recordClient, recordServer } from "../recorder.mjs";

function openSession(start = "x") {
  const port = makePort();
  const lines = [];
  const write = (line) => lines.push(line);
  const server = new port.Server(start);
  recordServer(server, { write });
  const client = new port.Client(0);
  const session = { port, server, client, sent: [], document: start, operation: (json) => port.TextOperation.fromJSON(json) };
  client.sendOperation = (revision, operation) => session.sent.push([revision, operation.toJSON()]);
  client.applyOperation = (operation) => (session.document = operation.apply(session.document));
  recordClient(client, { who: "ann", document: () => session.document, write });
  session.edit = (json) => {
    session.document = session.operation(json).apply(session.document);
    client.applyClient(session.operation(json));
  };
  /* What was logged, without the times. */
  session.log = () => lines.splice(0).map((line) => (({ time, ...event }) => (assert.ok(Number.isInteger(time)), event))(JSON.parse(line)));
  return session;
}

test("each participant logs its opening", () => {
  assert.deepEqual(openSession().log(), [
    { who: "server", n: 0, do: "open", role: "server", revision: 0, document: "x" },
    { who: "ann", n: 0, do: "open", role: "client", revision: 0, state: "synchronized", outstanding: null, buffer: null, document: "x" },
  ]);
});

test("edit, take, deliver and acknowledgement", () => {
  const session = openSession();
  session.log();
  session.edit([1, "z"]);
  session.edit([-1, 1]);
  session.client.applyServer(session.operation(["c", 1]));
  session.server.receiveOperation(0, session.operation([1, "z"]));
  session.client.serverAck();
  const waiting = { revision: 0, state: "awaiting-with-buffer", outstanding: [1, "z"], buffer: [-1, 1] };
  assert.deepEqual(session.log(), [
    { who: "ann", n: 1, do: "edit", edit: [1, "z"], revision: 0, state: "awaiting-confirm", outstanding: [1, "z"], buffer: null, sent: { revision: 0, operation: [1, "z"] }, document: "xz" },
    { who: "ann", n: 2, do: "edit", edit: [-1, 1], ...waiting, document: "z" },
    { who: "ann", n: 3, do: "deliver", operation: ["c", 1], ...waiting, revision: 1, outstanding: [2, "z"], buffer: [1, -1, 1], applied: ["c", 1], document: "cz" },
    { who: "server", n: 1, do: "take", given: { revision: 0, operation: [1, "z"] }, revision: 1, appended: [1, "z"], document: "xz" },
    { who: "ann", n: 4, do: "ack", revision: 2, state: "awaiting-confirm", outstanding: [1, -1, 1], buffer: null, sent: { revision: 2, operation: [1, -1, 1] }, document: "cz" },
  ]);
  assert.deepEqual(session.sent, [[0, [1, "z"]], [2, [1, -1, 1]]], "the page's own sendOperation was called");
});

test("what a method throws is logged and thrown", () => {
  const session = openSession();
  session.log();
  assert.throws(() => session.client.serverAck(), /There is no pending operation/);
  assert.throws(() => session.server.receiveOperation(1, session.operation([1])), /operation revision not in history/);
  assert.deepEqual(session.log(), [
    { who: "ann", n: 1, do: "ack", stopped: "Error: There is no pending operation." },
    { who: "server", n: 1, do: "take", given: { revision: 1, operation: [1] }, stopped: "Error: operation revision not in history" },
  ]);
});

test("the server answers as before, and other objects of its class are not recorded", () => {
  const session = openSession();
  const answer = session.server.receiveOperation(0, session.operation([1, "a"]));
  assert.deepEqual(answer.toJSON(), [1, "a"]);
  session.log();
  new session.port.Server("x").receiveOperation(0, session.operation([1]));
  assert.deepEqual(session.log(), []);
});

test("an edit that an editor makes while it applies is an event of its own", () => {
  const session = openSession();
  session.log();
  const apply = session.client.applyOperation;
  session.client.applyOperation = (operation) => {
    apply(operation);
    session.client.applyClient(session.operation([2]));
  };
  session.client.applyServer(session.operation(["c", 1]));
  const [edit, deliver] = session.log();
  assert.deepEqual([edit.do, edit.n, edit.sent.operation, edit.applied], ["edit", 1, [2], undefined]);
  assert.deepEqual([deliver.do, deliver.n, deliver.applied, deliver.sent], ["deliver", 2, ["c", 1], undefined]);
});
