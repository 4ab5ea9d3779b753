/* The functions of the package in a worker of node's: each gives a promise, and takes a signal that cancels it. */

import { Worker } from "node:worker_threads";
import { laterBenchOver } from "./bench.mjs";
import { engine } from "./engine.mjs";
import { queueOver } from "../ports/queue.mjs";

export { EngineFault } from "../engine/host.mjs";
export { OtbenchError } from "./errors.mjs";

const INSIDE = new URL("./inside.mjs", import.meta.url);

/* A process ends though a worker waits, but not while one runs. Node's own words, as `--eval`, are not for it. */
function start({ onAnswer, onFailure }) {
  const worker = new Worker(INSIDE, { workerData: engine(), execArgv: [] });
  let isEnded = false;
  worker.on("message", (answer) => {
    worker.unref();
    onAnswer(answer);
  });
  worker.on("error", (error) => isEnded || onFailure(error));
  worker.on("exit", (status) => isEnded || onFailure(new Error(`the worker has ended with status ${status}`)));
  return {
    post(request) {
      worker.ref();
      worker.postMessage(request);
    },
    end() {
      isEnded = true;
      worker.terminate();
    },
  };
}

/** All functions over a worker of their own. */
export function openWorker() {
  const { ask, close } = queueOver(start);
  return { ...laterBenchOver((words, input, signal) => ask({ words, input }, signal)), close };
}

export const { serve, run, steps, explain, verdict, conform, conformMany, check, judge, assemble, disassemble, complete, generate, close } = openWorker();
