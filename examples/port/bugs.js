/* Five faults that ports of ot.js have, each planted in ot.js itself, to see how they show. */

/* ot.js does not export the classes of its two waiting states: a client is led into them. */
export function waitingStates({ Client, TextOperation }) {
  const client = new Client(0);
  client.sendOperation = () => {};
  client.applyClient(new TextOperation().insert("a"));
  const AwaitingConfirm = client.state.constructor;
  client.applyClient(new TextOperation().retain(1).insert("b"));
  return { AwaitingConfirm, AwaitingWithBuffer: client.state.constructor };
}

export const bugs = {
  /* Where both operations insert at one place, the second one's text goes first. */
  tie({ TextOperation }) {
    const transform = TextOperation.transform;
    TextOperation.transform = (a, b) => transform(b, a).reverse();
  },

  /* The buffer is sent with the revision that the client had before the acknowledgement. */
  "old-revision"(port) {
    const { AwaitingConfirm, AwaitingWithBuffer } = waitingStates(port);
    AwaitingWithBuffer.prototype.serverAck = function (client) {
      client.sendOperation(client.revision - 1, this.buffer);
      return new AwaitingConfirm(this.buffer);
    };
  },

  /* A delivered operation does not change the buffer. */
  "buffer-kept"(port) {
    const { AwaitingWithBuffer } = waitingStates(port);
    AwaitingWithBuffer.prototype.applyServer = function (client, operation) {
      const transform = port.TextOperation.transform;
      const [outstanding, passed] = transform(this.outstanding, operation);
      client.applyOperation(transform(this.buffer, passed)[1]);
      return new AwaitingWithBuffer(outstanding, this.buffer);
    };
  },

  /* The server transforms a message over its whole log, also over what the client knew. */
  "whole-log"({ Server }) {
    const receive = Server.prototype.receiveOperation;
    Server.prototype.receiveOperation = function (revision, operation) {
      return receive.call(this, 0, operation);
    };
  },

  /* An insertion stays behind a deletion that it is added to. */
  order({ TextOperation }) {
    TextOperation.prototype.insert = function (text) {
      if (text === "") return this;
      this.targetLength += text.length;
      const last = this.ops.length - 1;
      if (typeof this.ops[last] === "string") this.ops[last] += text;
      else this.ops.push(text);
      return this;
    };
  },
};
