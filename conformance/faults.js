/*
 * Faults of ports: `bugs`, in the form of examples/port/bugs.js, whose five are among them. There is one for each branch of
 * ot.js, and one for each kind of text, length, operation, message and log. Nearly all are an edit of a method's source: what stands
 * there, and what the faulty port has instead. Those of `leaks` show only where one process performs several sessions.
 */

import { bugs as five, waitingStates } from "../examples/port/bugs.js";

/* [name, method, what ot.js has, what the fault has]; blanks are one blank each, and comments are left out. */
const EDITS = [
  ["transform-first-inserts", "transform", "operation2prime.retain(op1.length)", "operation2prime.retain(1)"],
  ["transform-second-inserts", "transform", "operation1prime.retain(op2.length)", "operation1prime.retain(1)"],
  ["transform-retain-longer", "transform", "if (op1 > op2) { minl = op2;", "if (op1 > op2) { minl = op1;"],
  ["transform-retain-equal", "transform", "(op1 === op2) { minl = op2; op1 = ops1[i1++];", "(op1 === op2) { minl = op2;"],
  ["transform-retain-shorter", "transform", "minl = op1; op2 = op2 - op1;", "minl = op2; op2 = op2 - op1;"],
  ["transform-delete-longer", "transform", "if (-op1 > -op2) { op1 = op1 - op2;", "if (-op1 > -op2) { op1 = ops1[i1++];"],
  ["transform-delete-equal", "transform", "(op1 === op2) { op1 = ops1[i1++];", "(op1 === op2) { operation1prime['delete'](op1); op1 = ops1[i1++];"],
  ["transform-delete-shorter", "transform", "else { op2 = op2 - op1;", "else { op2 = ops2[i2++];"],
  ["transform-delete-retain-longer", "transform", "minl = op2; op1 = op1 + op2;", "minl = -op1; op1 = op1 + op2;"],
  ["transform-delete-retain-equal", "transform", "(-op1 === op2) { minl = op2;", "(-op1 === op2) { minl = 0;"],
  ["transform-delete-retain-shorter", "transform", "minl = -op1; op2 = op2 + op1;", "minl = op2; op2 = op2 + op1;"],
  ["transform-retain-delete-longer", "transform", "minl = -op2; op1 = op1 + op2;", "minl = op1; op1 = op1 + op2;"],
  ["transform-retain-delete-equal", "transform", "(op1 === -op2) { minl = op1;", "(op1 === -op2) { minl = 0;"],
  ["transform-retain-delete-shorter", "transform", "minl = op1; op2 = op2 + op1;", "minl = -op2; op2 = op2 + op1;"],

  ["compose-first-deletes", "compose", "operation['delete'](op1); op1 = ops1[i1++]; continue;", "op1 = ops1[i1++]; continue;"],
  ["compose-first-deletes-at-the-end", "compose", "if (isDelete(op1)) {", "if (typeof op2 === 'undefined') { break; } if (isDelete(op1)) {"],
  ["compose-second-inserts", "compose", "operation.insert(op2);", "operation.insert(op2.slice(0, 1));"],
  ["compose-retain-longer", "compose", "operation.retain(op2); op1 = op1 - op2;", "operation.retain(op1); op1 = op1 - op2;"],
  ["compose-retain-equal", "compose", "(op1 === op2) { operation.retain(op1);", "(op1 === op2) {"],
  ["compose-retain-shorter", "compose", "operation.retain(op1); op2 = op2 - op1;", "operation.retain(op2); op2 = op2 - op1;"],
  ["compose-insert-delete-longer", "compose", "op1 = op1.slice(-op2);", "op1 = op1.slice(0, op2);"],
  ["compose-insert-delete-equal", "compose", "(op1.length === -op2) {", "(op1.length === -op2) { operation.insert(op1); operation['delete'](op2);"],
  ["compose-insert-delete-shorter", "compose", "op2 = op2 + op1.length;", "operation['delete'](op1.length); op2 = op2 + op1.length;"],
  ["compose-insert-retain-longer", "compose", "operation.insert(op1.slice(0, op2)); op1 = op1.slice(op2);", "operation.insert(op1); op1 = op1.slice(op2);"],
  ["compose-insert-retain-equal", "compose", "(op1.length === op2) { operation.insert(op1);", "(op1.length === op2) { operation.retain(op2);"],
  ["compose-insert-retain-shorter", "compose", "operation.insert(op1); op2 = op2 - op1.length;", "operation.insert(op1); op2 = ops2[i2++];"],
  ["compose-retain-delete-longer", "compose", "operation['delete'](op2); op1 = op1 + op2;", "operation['delete'](op1); op1 = op1 + op2;"],
  ["compose-retain-delete-equal", "compose", "(op1 === -op2) { operation['delete'](op2);", "(op1 === -op2) {"],
  ["compose-retain-delete-shorter", "compose", "operation['delete'](op1); op2 = op2 + op1;", "operation['delete'](op2); op2 = op2 + op1;"],

  ["insert-not-merged", "insert", "if (isInsert(ops[ops.length - 1])) {", "if (false) {"],
  ["insert-behind-a-replacement", "insert", "if (isInsert(ops[ops.length - 2])) {", "if (false) {"],
  ["retain-not-merged", "retain", "if (isRetain(this.ops[this.ops.length - 1])) {", "if (false) {"],
  ["delete-not-merged", "delete", "if (isDelete(this.ops[this.ops.length - 1])) {", "if (false) {"],

  ["synchronized-deliver", "Synchronized.applyServer", "client.applyOperation(operation);", ""],
  ["confirm-deliver-applies-the-message", "AwaitingConfirm.applyServer", "client.applyOperation(pair[1]);", "client.applyOperation(operation);"],
  ["confirm-deliver-keeps-outstanding", "AwaitingConfirm.applyServer", "new AwaitingConfirm(pair[0])", "new AwaitingConfirm(this.outstanding)"],
  ["buffer-deliver-skips-outstanding", "AwaitingWithBuffer.applyServer", "transform(this.buffer, pair1[1])", "transform(this.buffer, operation)"],
  ["buffer-deliver-applies-half", "AwaitingWithBuffer.applyServer", "client.applyOperation(pair2[1]);", "client.applyOperation(pair1[1]);"],
  ["buffer-deliver-keeps-outstanding", "AwaitingWithBuffer.applyServer", "new AwaitingWithBuffer(pair1[0],", "new AwaitingWithBuffer(this.outstanding,"],
  ["deliver-keeps-revision", "Client.applyServer", "this.revision++;", ""],
  ["confirm-ack-stays", "AwaitingConfirm.serverAck", "return synchronized_;", "return this;"],
  ["buffer-ack-sends-nothing", "AwaitingWithBuffer.serverAck", "client.sendOperation(client.revision, this.buffer);", ""],
  ["buffer-ack-forgets-the-buffer", "AwaitingWithBuffer.serverAck", "return new AwaitingConfirm(this.buffer);", "return synchronized_;"],
  ["ack-keeps-revision", "Client.serverAck", "this.revision++;", ""],
  ["buffer-replaced", "AwaitingWithBuffer.applyClient", "this.buffer.compose(operation)", "operation"],
  ["buffer-up-to-32-edits", "AwaitingWithBuffer.applyClient", "this.buffer.compose(operation)", "upTo(32, this.buffer, operation)"],
  ["buffer-up-to-200-edits", "AwaitingWithBuffer.applyClient", "this.buffer.compose(operation)", "upTo(200, this.buffer, operation)"],

  ["receive-first-alone", "Server.receiveOperation", "slice(revision)", "slice(revision, revision + 1)"],
  ["receive-skips-one", "Server.receiveOperation", "slice(revision)", "slice(revision + 1)"],
  ["receive-not-transformed", "Server.receiveOperation", "operation = transform(operation, concurrentOperations[i])[0];", ""],
  ["receive-newest-first", "Server.receiveOperation", "concurrentOperations[i]", "concurrentOperations[concurrentOperations.length - 1 - i]"],
  ["receive-first-goes-first", "Server.receiveOperation", "transform(operation, concurrentOperations[i])[0]", "transform(concurrentOperations[i], operation)[1]"],

  ["transform-counts-code-points", "transform", "operation1prime.retain(op2.length)", "operation1prime.retain([...op2].length)"],
  ["insert-counts-code-points", "insert", "this.targetLength += str.length;", "this.targetLength += [...str].length;"],
  ["line-ends-changed", "insert", "this.targetLength += str.length;", "str = str.replace(/\\r\\n/g, '\\n'); this.targetLength += str.length;"],
  ["texts-normalized", "insert", "this.targetLength += str.length;", "str = str.normalize(); this.targetLength += str.length;"],
  ["texts-escaped", "insert", "this.targetLength += str.length;", "str = str.replace(/</g, '&lt;'); this.targetLength += str.length;"],
  ["texts-with-other-blanks", "insert", "this.targetLength += str.length;", "str = str.replace(/\\u00a0/g, ' '); this.targetLength += str.length;"],
  ["texts-end-at-nul", "insert", "this.targetLength += str.length;", "str = str.replace(/\\0.*/s, ''); this.targetLength += str.length;"],
  ["texts-unescaped", "insert", "this.targetLength += str.length;", "str = str.replace(/&gt;/g, '>'); this.targetLength += str.length;"],
  ["texts-as-replacements", "insert", "this.targetLength += str.length;", "str = 'x'.replace('x', str); this.targetLength += str.length;"],
  ["texts-with-straight-quotes", "insert", "this.targetLength += str.length;", "str = str.replace(/[\\u201c\\u201d]/g, '\"'); this.targetLength += str.length;"],
  ["texts-without-blanks-in-front", "insert", "this.targetLength += str.length;", "str = str.replace(/^ +/, ''); this.targetLength += str.length;"],
  ["texts-without-spaces-of-no-width", "insert", "this.targetLength += str.length;", "str = str.replace(/[\\u200b\\u2060]/g, ''); this.targetLength += str.length;"],
  ["texts-without-joiners", "insert", "this.targetLength += str.length;", "str = str.replace(/[\\u200c\\u200d]/g, ''); this.targetLength += str.length;"],
  ["texts-with-one-line-end", "insert", "this.targetLength += str.length;", "str = str.replace(/\\u2029/g, '\\n'); this.targetLength += str.length;"],
  ["text-12-is-a-retain", "retain", "isRetain(this.ops[this.ops.length - 1])", "this.ops[this.ops.length - 1] > 0"],
  ["text-minus-1-is-a-deletion", "delete", "isDelete(this.ops[this.ops.length - 1])", "this.ops[this.ops.length - 1] < 0"],
  ["text-0-is-empty", "insert", "if (str === '') {", "if (str === '' || str === '0') {"],
  ["equal-texts-once", "transform", "if (isInsert(op1)) {", "if (isInsert(op1) && op1 === op2) { operation1prime.retain(op1.length); operation2prime.retain(op1.length); op1 = ops1[i1++]; op2 = ops2[i2++]; continue; } if (isInsert(op1)) {"],
  ["texts-like-words-of-objects", "insert", "if (str === '') {", "if (str === '' || str in {}) {"],
  ["documents-without-a-mark-in-front", "apply", "return newStr.join('');", "return newStr.join('').replace(/^\\ufeff/, '');"],
  ["texts-without-noncharacters", "insert", "this.targetLength += str.length;", "str = str.replace(/[\\ufffe\\uffff]/g, '\\ufffd'); this.targetLength += str.length;"],
  ["lengths-of-8-bits", "retain", "if (n === 0) {", "n = n & 255; if (n === 0) {"],
  ["lengths-of-15-bits", "retain", "if (n === 0) {", "n = n & 32767; if (n === 0) {"],
  ["lengths-of-16-bits", "retain", "if (n === 0) {", "n = n & 65535; if (n === 0) {"],
  ["lengths-up-to-100000", "retain", "if (n === 0) {", "n = Math.min(n, 100000); if (n === 0) {"],
  ["components-up-to-1000", "retain", "this.ops.push(n);", "if (this.ops.length === 1000) { throw new Error('too many components'); } this.ops.push(n);"],
  ["log-cut-at-40", "Server.receiveOperation", "slice(revision)", "slice(Math.max(revision, this.operations.length - 40))"],
  ["log-cut-at-100", "Server.receiveOperation", "slice(revision)", "slice(Math.max(revision, this.operations.length - 100))"],
  ["log-cut-at-1000", "Server.receiveOperation", "slice(revision)", "slice(Math.max(revision, this.operations.length - 1000))"],
  ["log-cut-at-1024", "Server.receiveOperation", "slice(revision)", "slice(Math.max(revision, this.operations.length - 1024))"],
  ["log-cut-at-3000", "Server.receiveOperation", "slice(revision)", "slice(Math.max(revision, this.operations.length - 3000))"],

  ["log-changed-by-a-message", "Server.receiveOperation", "operation = transform(operation, concurrentOperations[i])[0];", "var pair = transform(operation, concurrentOperations[i]); Object.assign(concurrentOperations[i], pair[1]); operation = pair[0];"],
  ["message-read-in-pieces", "Server.receiveOperation", "var concurrentOperations =", "operation = inPieces(operation); var concurrentOperations ="],
];

export const leaks = {
  /* All servers have one log. */
  "log-shared"(port) {
    const { Server } = port;
    const log = [];
    port.Server = function (document) {
      return new Server(document, log);
    };
  },
};

/* An operation as a message of bytes that are read 4,096 at a time, and each piece taken for a text. */
function inPieces(operation) {
  const bytes = Buffer.from(JSON.stringify(operation));
  let text = "";
  for (let at = 0; at < bytes.length; at += 4096) text += bytes.toString("utf8", at, at + 4096);
  return operation.constructor.fromJSON(JSON.parse(text));
}

/* A buffer that takes so many edits, and forgets the further ones. */
function upTo(most, buffer, operation) {
  const { edits = 1 } = buffer;
  return edits === most ? buffer : Object.assign(buffer.compose(operation), { edits: edits + 1 });
}

/* Results of `transform` are kept under the components, joined into one text, in which a length and a text can be alike. */
export function keptBy(separator) {
  return ({ TextOperation }) => {
    const { transform } = TextOperation;
    const kept = new Map();
    TextOperation.transform = (first, second) => {
      const key = `${first.ops.join(separator)}|${second.ops.join(separator)}`;
      if (!kept.has(key)) kept.set(key, transform(first, second));
      return kept.get(key);
    };
  };
}

const others = {
  "transforms-kept-by-text": keptBy(","),
  "transforms-kept-by-words": keptBy(" "),
  /* The port has room for 32 clients. */
  "clients-up-to-32"(port) {
    const { Client, Server } = port;
    let clients = 0;
    port.Server = function (document) {
      clients = 0;
      return new Server(document);
    };
    port.Client = function (revision) {
      if (clients++ === 32) throw new Error("too many clients");
      return new Client(revision);
    };
  },
};

/* Where a method stands: the object that has it and its name there. */
function placeOf(port, method) {
  const { TextOperation, Client, Server } = port;
  const [owner, name] = method.split(".");
  if (method === "transform") return [TextOperation, method];
  if (name === undefined) return [TextOperation.prototype, method];
  const Synchronized = new Client(0).state.constructor;
  return [{ Client, Server, Synchronized, ...waitingStates(port) }[owner].prototype, name];
}

/* Puts an edited method into a port. The edit has to stand once in the method. */
function edit(port, method, from, to) {
  const [owner, name] = placeOf(port, method);
  const source = owner[name].toString().replace(/\/\/.*$/gm, "").replace(/\s+/g, " ");
  if (source.split(from).length !== 2) throw new Error(`${method} does not have once: ${from}`);
  const names = {
    TextOperation: port.TextOperation,
    isRetain: (component) => typeof component === "number" && component > 0,
    isInsert: (component) => typeof component === "string",
    isDelete: (component) => typeof component === "number" && component < 0,
    synchronized_: new port.Client(0).state,
    inPieces,
    upTo,
    ...waitingStates(port),
  };
  owner[name] = new Function(...Object.keys(names), `return ${source.replace(from, () => to)};`)(...Object.values(names));
}

export const bugs = { ...five, ...leaks, ...others };
for (const [name, method, from, to] of EDITS) bugs[name] = (port) => edit(port, method, from, to);
