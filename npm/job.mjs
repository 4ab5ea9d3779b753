/* A call of the engine inside of a worker: the message that answers it, and what goes with it without being copied. */

import { EngineFault, serve } from "../engine/host.mjs";

/** @returns {[message: object, transfer: ArrayBuffer[]]} */
export function answerOf(module, words, input) {
  try {
    const answer = serve(module, words, input);
    return [answer, [answer.output.buffer, answer.errors.buffer]];
  } catch (fault) {
    if (!(fault instanceof EngineFault)) throw fault;
    return [{ fault: fault.message }, []];
  }
}
