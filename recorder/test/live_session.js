/*
 * A live session in one process: ot.js, recorded, with links that deliver when a seeded chance lets them. Documents count
 * UTF-16 units and hold characters past U+FFFF.
 *
 *     liveSession({ seed, clients, edits, late, cut, wrapped, middle, plant }) gives { log, documents, broke },
 * the documents at the end by participant, and what the session threw, if anything.
 *
 * late: so many clients join on the way; cut: messages are left under way; wrapped: operations in ot.js' WrappedOperation;
 * middle: the recording begins at a quiet moment of a session, at revision 5; plant: a fault for the port.
 */

import { makePort } from "../../oracle/otjs.js";
import { recordClient, recordServer } from "../recorder.mjs";

/* ot.js' WrappedOperation, as its EditorClient hands it to Client. */
class Wrapped {
  constructor(wrapped, meta) {
    this.wrapped = wrapped;
    this.meta = meta;
  }
  apply(text) {
    return this.wrapped.apply(text);
  }
  compose(other) {
    return new Wrapped(this.wrapped.compose(other.wrapped), other.meta);
  }
  static transform(a, b) {
    const [first, second] = a.wrapped.constructor.transform(a.wrapped, b.wrapped);
    return [new Wrapped(first, a.meta), new Wrapped(second, b.meta)];
  }
}

/* Numbers below n, the same for the same seed. */
export function chance(seed) {
  let state = (seed * 2654435761) >>> 0 || 1;
  return (n) => {
    state ^= state << 13;
    state >>>= 0;
    state ^= state >>> 17;
    state ^= state << 5;
    state >>>= 0;
    return state % n;
  };
}

const nameOf = (number) => `client ${"abcdefghij"[number]}`;

const START = "a😀b";
const INSERTIONS = ["x", "yz", "😀", "𝒳é", "ab"];

export class LiveSession {
  constructor({ seed = 1, clients = 3, edits = 40, late = 0, cut = false, wrapped = false, middle = false, plant } = {}) {
    this.port = makePort();
    if (plant) plant(this.port);
    this.random = chance(seed);
    this.wrap = wrapped ? (operation) => new Wrapped(operation, { selection: null }) : (operation) => operation;
    this.options = { clients, edits, cut };
    this.lines = [];
    const { Server, TextOperation } = this.port;
    const before = [0, 1, 2, 3, 4].map(() => this.wrap(new TextOperation().retain(START.length)));
    this.server = middle ? new Server(START, before) : new Server(START);
    recordServer(this.server, { write: (line) => this.lines.push(line) });
    this.clients = [];
    while (this.clients.length < clients - late) this.join();
  }

  join() {
    const client = new this.port.Client(this.server.operations.length);
    const seat = { client, document: this.server.document, up: [], down: [] };
    client.sendOperation = (revision, operation) => seat.up.push([revision, operation]);
    client.applyOperation = (operation) => (seat.document = operation.apply(seat.document));
    const who = nameOf(this.clients.length);
    recordClient(client, { who, document: () => seat.document, write: (line) => this.lines.push(line) });
    this.clients.push(seat);
  }

  /* A place near one, between two scalars. */
  between(text, place) {
    return /[\udc00-\udfff]/.test(text[place] || "") ? place + 1 : place;
  }

  edit(seat) {
    const text = seat.document;
    const from = this.between(text, this.random(text.length + 1));
    const to = this.between(text, Math.min(text.length, from + this.random(4)));
    const operation = new this.port.TextOperation().retain(from);
    if (this.random(3) || from === to) operation.insert(INSERTIONS[this.random(5)]).retain(text.length - from);
    else operation.delete(to - from).retain(text.length - to);
    this.apply(seat, operation);
  }

  apply(seat, operation) {
    seat.document = operation.apply(seat.document);
    seat.client.applyClient(this.wrap(operation));
  }

  take(seat) {
    const appended = this.server.receiveOperation(...seat.up.shift());
    for (const other of this.clients) other.down.push(other === seat ? null : appended);
  }

  receive(seat) {
    const operation = seat.down.shift();
    if (operation) seat.client.applyServer(operation);
    else seat.client.serverAck();
  }

  run() {
    const { clients, cut } = this.options;
    let { edits } = this.options;
    const isOver = () =>
      edits === 0 && (cut || (this.clients.length === clients && this.clients.every((seat) => !seat.up.length && !seat.down.length)));
    for (let turn = 0; ; turn++) {
      const seat = this.clients[this.random(this.clients.length)];
      const what = this.random(3);
      if (this.clients.length < clients && turn > 40 * this.clients.length) this.join();
      if (what === 0 && edits > 0) {
        this.edit(seat);
        edits--;
      } else if (what === 1 && seat.up.length) this.take(seat);
      else if (seat.down.length) this.receive(seat);
      else if (isOver()) return;
    }
  }
}

/* The lines come as whole logs, the last participant's first: no order between participants is kept. */
function inWholeLogs(lines) {
  const logs = new Map();
  for (const line of lines) {
    const { who } = JSON.parse(line);
    logs.set(who, [...(logs.get(who) || []), line]);
  }
  return [...logs.values()].reverse().flat();
}

export function liveSession(options) {
  const session = new LiveSession(options);
  let broke = null;
  try {
    session.run();
  } catch (fault) {
    broke = fault.message;
  }
  const documents = { server: session.server.document };
  session.clients.forEach((seat, number) => (documents[nameOf(number)] = seat.document));
  return { log: inWholeLogs(session.lines).join("\n") + "\n", documents, broke };
}
