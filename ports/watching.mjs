/*
 * A port in a worker, which is ended where a session does not:
 *
 *     conforms(new URL("../npm/my-port.js", import.meta.url))
 *
 *     worker ── the session under way ──▶ here, with a clock ── over ──▶ the worker ends, and the error names the session
 */

import { AssertionError } from "node:assert";
import { Worker } from "node:worker_threads";
import { OtbenchError } from "../npm/errors.mjs";
import { hangOf, limitOf } from "./conforming.mjs";
import { crowd } from "./pace.mjs";
import { behind } from "./timer.mjs";

const INSIDE = new URL("./watched.mjs", import.meta.url);
const BEGIN = 30_000; // milliseconds in which the first session begins, and more on a busy machine
const LOOK = 3000; // the same in which a session is tried alone
const SLACK = 500; // milliseconds in which the worker ends a session itself, where it can

/* The error that the worker has told of. */
function errorOf({ name, message, fields, actual, expected }) {
  const error = name === "AssertionError" ? new AssertionError({ message, actual, expected, operator: "conforms" }) : name === "TypeError" ? new TypeError(message) : new Error(message);
  const failures = fields.failures?.map((it) => ({ ...it, error: errorOf(it.error) }));
  return Object.assign(error, fields, failures && { failures });
}

/* The error of a worker in which no session began. */
function unbegun(module, milliseconds) {
  const where = module.protocol === "file:" ? module.pathname : module.href;
  return new AssertionError({ message: `no session began within ${Number((milliseconds / 1000).toPrecision(3))} seconds: loading ${where} did not end`, operator: "conforms" });
}

const ALONE = "alone, in a worker of its own, this session conforms: the port keeps state between sessions";

/* Whether a session conforms that is the first one of a worker; false where that does not end soon. */
async function conformsAlone(module, schedule, { utf16 }) {
  const worker = new Worker(INSIDE, { workerData: { module: module.href, options: utf16 === undefined ? {} : { utf16 }, alone: schedule, at: new Int32Array(1) }, execArgv: [] });
  let timer = null;
  try {
    return await new Promise((resolve) => {
      timer = setTimeout(resolve, LOOK * crowd(), false);
      worker.on("message", ({ result }) => resolve(result?.conforms === true));
      worker.on("error", () => resolve(false));
      worker.on("exit", () => resolve(false));
    });
  } finally {
    clearTimeout(timer);
    await worker.terminate();
  }
}

/* The error of a session that differs, with a word where it conforms alone. */
async function withAlone(module, error, options) {
  if (error.answer?.verdict !== "differs" || error.failures || !(await conformsAlone(module, error.schedule, options))) return error;
  return Object.assign(error, { message: `${error.message}${ALONE}\n` });
}

/**
 * Tries the port of a module.
 * @param {URL} module it exports TextOperation, Client and Server, and `accessors` where the port needs them; or a driver as `default`
 * @param {import("./testing.mjs").ConformsOptions} options checked ones
 * @param {{ begin?: number }} [limits] the milliseconds in which the first session begins
 */
export async function triedInWorker(module, options, { begin = BEGIN } = {}) {
  if (options.accessors) throw new OtbenchError("Usage", "accessors are exported by the module of a port that is given by its URL");
  const { onSession = () => {}, tap = () => {}, signal, ...sent } = options;
  signal?.throwIfAborted();
  const at = new Int32Array(new SharedArrayBuffer(4));
  const worker = new Worker(INSIDE, { workerData: { module: module.href, options: { ...sent, ...(options.tap && { tap: true }) }, at }, execArgv: [] });
  let [timer, stop] = [null, () => {}];
  try {
    return await new Promise((resolve, reject) => {
      let failed = null; // the session that fails, while it is reduced
      let isTold = false;
      let under = "its module"; // or the session under way
      const clock = (name, schedule) => {
        under = name;
        timer.stop();
        timer = behind(limitOf(schedule, options) + SLACK, () => reject(failed ?? hangOf(name, schedule, Atomics.load(at, 0), {}, options)));
      };
      const most = begin * crowd();
      timer = behind(most, () => reject(unbegun(module, most)));
      stop = () => reject(signal.reason);
      signal?.addEventListener("abort", stop);
      worker.on("message", ({ session, done, line, failure, error, result }) => {
        if (session) clock(session.name, session.schedule);
        else if (done) onSession(done);
        else if (line !== undefined) tap(line);
        else if (failure) failed = errorOf(failure);
        else if (error) {
          isTold = true;
          timer.stop();
          withAlone(module, errorOf(error), options).then(reject, reject);
        }
        else resolve(result);
      });
      worker.on("error", reject);
      worker.on("exit", (status) => isTold || reject(failed ?? new Error(`the port has ended the worker, with status ${status} in ${under}`)));
    });
  } finally {
    timer?.stop();
    signal?.removeEventListener("abort", stop);
    await worker.terminate();
  }
}
