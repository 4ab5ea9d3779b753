/* The functions of the package in a browser's worker: each gives a promise, and takes a signal that cancels it. */

import { laterBenchOver } from "../bench.mjs";
import { queueOver } from "../../ports/queue.mjs";
import { engine } from "./engine.mjs";

export { EngineFault } from "../../engine/host.mjs";
export { OtbenchError } from "../errors.mjs";

const module = await engine();

function start({ onAnswer, onFailure }) {
  const worker = new Worker(new URL("./inside.mjs", import.meta.url), { type: "module" });
  worker.onmessage = ({ data }) => onAnswer(data);
  worker.onerror = ({ message }) => onFailure(new Error(message));
  worker.postMessage(module);
  return { post: (request) => worker.postMessage(request), end: () => worker.terminate() };
}

/** All functions over a worker of their own. */
export function openWorker() {
  const { ask, close } = queueOver(start);
  return { ...laterBenchOver((words, input, signal) => ask({ words, input }, signal)), close };
}

export const { serve, run, steps, explain, verdict, conform, conformMany, check, judge, assemble, disassemble, complete, generate, close } = openWorker();
