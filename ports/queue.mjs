/*
 * Calls in a worker, one after the other. A call that is cancelled while it runs ends the worker, since nothing else stops the
 * engine; one that waits is dropped. The next call starts another worker.
 */

import { EngineFault } from "../engine/host.mjs";

/**
 * @typedef {{ words: string[], input: Uint8Array }} Request
 * @typedef {{ post(request: Request): void, end(): void }} Started a worker that runs
 * @typedef {{ onAnswer(answer: object): void, onFailure(error: Error): void }} Listeners an answer has `fault` where the engine
 *     did not come to its end
 */

/**
 * A queue over a way to start a worker.
 * @param {(listeners: Listeners) => Started} start
 */
export function queueOver(start) {
  const calls = []; // the first one runs
  let worker = null;

  function runFirst() {
    if (calls.length === 0) return;
    worker ??= start({ onAnswer: settle, onFailure: fail });
    worker.post(calls[0].request);
  }

  function settle({ fault, ...answer }) {
    const [call] = calls;
    leave(call, () => (fault === undefined ? call.resolve(answer) : call.reject(new EngineFault(fault))));
  }

  /* Settles a call and takes it out; where it was the one that ran, the next one begins. */
  function leave(call, settle) {
    const isFirst = call === calls[0];
    call.signal?.removeEventListener("abort", call.onAbort);
    settle();
    calls.splice(calls.indexOf(call), 1);
    if (isFirst) runFirst();
  }

  function endWorker() {
    worker?.end();
    worker = null;
  }

  /* The worker has failed, and with it the call that ran. */
  function fail(error) {
    endWorker();
    if (calls.length > 0) leave(calls[0], () => calls[0].reject(error));
  }

  function abort(call) {
    if (call === calls[0]) endWorker();
    leave(call, () => call.reject(call.signal.reason));
  }

  /** @returns {Promise<object>} */
  function ask(request, signal) {
    return new Promise((resolve, reject) => {
      signal?.throwIfAborted();
      const call = { request, signal, resolve, reject, onAbort: () => abort(call) };
      signal?.addEventListener("abort", call.onAbort);
      calls.push(call);
      if (calls.length === 1) runFirst();
    });
  }

  /** Ends the worker; calls that wait or run are rejected. */
  function close() {
    endWorker();
    for (const call of calls.splice(0)) {
      call.signal?.removeEventListener("abort", call.onAbort);
      call.reject(new Error("the worker was closed"));
    }
  }

  return { ask, close };
}
