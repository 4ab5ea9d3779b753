// The worker: the engine's module is unpacked once, and each message is a job for the dispatcher.

import { serve } from "../../engine/host.mjs";
import { Dispatcher } from "./dispatcher.mjs";

/* The module: a compiled one, or the base64 of its gzip. */
async function unpack(module) {
  if (typeof module !== "string") return module;
  try {
    const packed = Uint8Array.from(atob(module), (character) => character.charCodeAt(0));
    const stream = new Blob([packed]).stream().pipeThrough(new DecompressionStream("gzip"));
    return await WebAssembly.compile(await new Response(stream).arrayBuffer());
  } catch {
    throw new Error("its module in this page is cut or damaged");
  }
}

let dispatcher = null;

onmessage = async ({ data: { id, call, given } }) => {
  try {
    if (call === "load") {
      const module = await unpack(given[0]);
      dispatcher = new Dispatcher((words, input) => serve(module, words, input));
      postMessage({ id, answer: module });
    } else {
      const began = performance.now();
      const answer = dispatcher[call](...given);
      postMessage({ id, answer: { ...answer, took: performance.now() - began } });
    }
  } catch (fault) {
    postMessage({ id, fault: fault.message });
  }
};
