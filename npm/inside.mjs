/* What runs in a worker of node's. */

import { parentPort, workerData } from "node:worker_threads";
import { answerOf } from "./job.mjs";

parentPort.on("message", ({ words, input }) => parentPort.postMessage(...answerOf(workerData, words, input)));
