/* What runs in a browser's worker: the first message is the engine, each other one a call. */

import { answerOf } from "../job.mjs";

let module = null;

onmessage = ({ data }) => {
  if (module === null) module = data;
  else postMessage(...answerOf(module, data.words, data.input));
};
