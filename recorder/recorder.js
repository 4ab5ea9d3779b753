/*
 * Records what the participants of a live ot.js session do: one line of JSON an event, each participant's in its own order.
 *
 *     page    recorder.recordClient(client, { who: "ann", document: () => editor.getValue(), write: (line) => .. })
 *     node    recordServer(server, { write: (line) => stream.write(line + "\n") })
 *
 * Methods of that one object are wrapped: of ot.js' Client applyClient, applyServer, serverAck and the page's sendOperation
 * and applyOperation, of its Server receiveOperation. They do what they did. Lengths are UTF-16 units, as ot.js has them;
 * `otbench merge` counts scalars. README.md lists the keys.
 *
 * Call recordClient when the client is made and has its sendOperation and applyOperation, before the first edit;
 * recordServer before the first operation comes, or while all is quiet.
 */
"use strict";
globalThis.recorder = (() => {
  /* ot.js' WrappedOperation has the TextOperation inside. */
  const json = (operation) => (operation ? (operation.wrapped || operation).toJSON() : null);

  /* Gives each event its participant, its number and its time. */
  function openLog(who, write) {
    let n = 0;
    return (event) => write(JSON.stringify({ who, n: n++, time: Date.now(), ...event }));
  }

  /* Calls a method for an event, and logs what came of it or what it threw. */
  function logCall(log, event, call, outcome) {
    try {
      const answer = call();
      log({ ...event, ...outcome() });
      return answer;
    } catch (fault) {
      log({ ...event, stopped: String(fault) });
      throw fault;
    }
  }

  function stateOf({ revision, state: { outstanding, buffer } }) {
    return {
      revision,
      state: buffer ? "awaiting-with-buffer" : outstanding ? "awaiting-confirm" : "synchronized",
      outstanding: json(outstanding),
      buffer: json(buffer),
    };
  }

  function recordClient(client, { who, document, write }) {
    const log = openLog(who, write);
    let seen = {}; // what the call that is going on has sent and applied

    function watch(name, note) {
      const method = client[name];
      client[name] = function (...given) {
        note(...given);
        return method.apply(this, given);
      };
    }
    watch("sendOperation", (revision, operation) => (seen.sent = { revision, operation: json(operation) }));
    watch("applyOperation", (operation) => (seen.applied = json(operation)));

    function record(name, word, key) {
      const method = client[name];
      client[name] = function (...given) {
        const event = key ? { do: word, [key]: json(given[0]) } : { do: word };
        const outer = seen;
        const inner = (seen = {});
        try {
          const outcome = () => ({ ...stateOf(client), ...inner, document: document() });
          return logCall(log, event, () => method.apply(this, given), outcome);
        } finally {
          seen = outer;
        }
      };
    }
    record("applyClient", "edit", "edit");
    record("applyServer", "deliver", "operation");
    record("serverAck", "ack");
    log({ do: "open", role: "client", ...stateOf(client), document: document() });
  }

  function recordServer(server, { who = "server", write }) {
    const log = openLog(who, write);
    const receive = server.receiveOperation;
    const length = () => server.operations.length;
    server.receiveOperation = function (revision, operation, ...more) {
      const event = { do: "take", given: { revision, operation: json(operation) } };
      const outcome = () => ({
        revision: length(),
        appended: json(server.operations[length() - 1]),
        document: server.document,
      });
      return logCall(log, event, () => receive.call(this, revision, operation, ...more), outcome);
    };
    log({ do: "open", role: "server", revision: length(), document: server.document });
  }

  return { recordClient, recordServer };
})();
if (typeof module === "object") module.exports = globalThis.recorder; // in a project of CommonJS
