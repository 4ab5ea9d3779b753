/*
 * A session around a port of ot.js: the server, the clients that have joined, each with its document and two links.
 *
 *     client ── up: at most one message {revision, operation} ──▶ server
 *            ◀── down: operations of others, null for an acknowledgement ──
 *
 * A message is kept as its JSON, and who receives it is given an operation made of that, as over a wire: no two of the port's
 * objects share one.
 *
 * The port is an object with ot.js' TextOperation, Client and Server. Everything else that a session needs is here, beside
 * the port's objects; to drive a port in another language, write this file again in it.
 */

/* The value of something in JSON as it is now: the port may change the object later. */
const asItIs = (value) => JSON.parse(JSON.stringify(value));

/* Where ot.js has the values that a session reads. A port that has them elsewhere is given with functions of its own. */
export const ACCESSORS = {
  revision: (client) => client.revision,
  outstanding: (client) => client.state.outstanding,
  buffer: (client) => client.state.buffer,
  document: (server) => server.document,
  operations: (server) => server.operations,
};

/* An operation of the port, by `fromJSON` or by the builder. */
export function operationOf({ TextOperation }, components) {
  if (typeof TextOperation.fromJSON === "function") return TextOperation.fromJSON(components);
  const operation = new TextOperation();
  for (const component of components) {
    if (typeof component === "string") operation.insert(component);
    else if (component > 0) operation.retain(component);
    else operation.delete(-component);
  }
  return operation;
}

/* What is wrong with a call of `sendOperation`, or null. `client` is the one that calls. */
function faultOfSending(client, acting, shown) {
  if (client !== acting) return "sendOperation was called when its client had nothing to do";
  if (shown.sent) return "sendOperation was called twice in one instruction";
  return client.awaits ? "sendOperation was called before the message under way was acknowledged" : null;
}

export class Session {
  constructor(port, { clients, present, start }, accessors = ACCESSORS) {
    this.port = port;
    this.read = accessors;
    this.server = new port.Server(start);
    this.clients = Array(clients).fill(null);
    this.message = undefined; // what the last instruction was handed: from a client, or to a client
    this.acting = null; // the client of the instruction that is performed
    this.shown = {}; // what its line shows
    this.fault = null; // what the port did at a wrong time
    for (let number = 0; number < present; number++) this.#join(number);
  }

  /* Performs an instruction and gives the values that its line shows. It throws where the port does, or the session. */
  perform(instruction) {
    return this.finish(instruction, this.begin(instruction));
  }

  /* The first half of an instruction: the call of the port's method, and what that returned, a promise maybe. */
  begin({ word, client: number, edit }) {
    this.message = undefined;
    this.acting = null;
    if (word === "read-server") return undefined;
    if (word === "join") {
      if (this.clients[number]) throw new Error("has joined already");
      this.#join(number);
    }
    const client = this.clients[number];
    if (!client) throw new Error("has not joined");
    this.acting = client;
    this.shown = { do: word, client: number };
    if (word === "take") return this.#take(client);
    if (word === "edit") return this.#edit(client, operationOf(this.port, edit));
    return word === "deliver" || word === "ack" ? this.#receive(client, word) : undefined;
  }

  /* The second half, with what the port's method returned. */
  finish({ word, client: number }, returned) {
    if (this.fault) throw this.fault;
    if (word === "read-server") return { do: word, document: this.read.document(this.server) };
    const client = this.clients[number];
    if (word === "take") return this.#taken(client, returned);
    return Object.assign(this.shown, this.#stateOf(client));
  }

  isQuiet() {
    return this.clients.every((client) => !client || (!this.read.outstanding(client.own) && !client.up && !client.down.length));
  }

  #join(number) {
    const own = new this.port.Client(this.read.operations(this.server).length);
    const client = { number, own, document: this.read.document(this.server), up: null, down: [], awaits: false };
    own.sendOperation = (revision, operation) => {
      const fault = faultOfSending(client, this.acting, this.shown);
      if (fault) this.fault ??= new Error(fault);
      client.up = this.shown.sent = asItIs({ revision, operation });
      client.awaits = true;
    };
    own.applyOperation = (operation) => {
      client.document = operation.apply(client.document);
      this.shown.applied = asItIs(operation);
    };
    this.clients[number] = client;
  }

  #edit(client, operation) {
    this.shown.edit = asItIs(operation);
    client.document = operation.apply(client.document);
    return client.own.applyClient(operation);
  }

  #take(client) {
    if (!client.up) throw new Error("no message under way");
    this.shown.message = this.message = client.up;
    return this.server.receiveOperation(client.up.revision, operationOf(this.port, client.up.operation));
  }

  #taken(client, appended) {
    client.up = null;
    if (appended === undefined || appended === null) throw new Error("receiveOperation gave no operation");
    const message = asItIs(appended);
    for (const other of this.clients) if (other) other.down.push(other === client ? null : message);
    const revision = this.read.operations(this.server).length;
    return Object.assign(this.shown, { revision, appended: message, document: this.read.document(this.server) });
  }

  #receive(client, word) {
    if (!client.down.length) throw new Error("no message under way");
    const operation = client.down[0];
    if ((operation === null) !== (word === "ack")) throw new Error("another message is at the head");
    client.down.shift();
    if (word === "ack") {
      client.awaits = false;
      return client.own.serverAck();
    }
    this.shown.message = this.message = operation;
    return client.own.applyServer(operationOf(this.port, operation));
  }

  /* The client's values. `null` says that there is none, and is compared; what is left out is not. */
  #stateOf({ own, document }) {
    const outstanding = this.read.outstanding(own) || null;
    const buffer = this.read.buffer(own) || null;
    const state = buffer ? "awaiting-with-buffer" : outstanding ? "awaiting-confirm" : "synchronized";
    return { revision: this.read.revision(own), state, outstanding, buffer, document };
  }
}
