/* The worker in which a port is tried. */

import { parentPort, workerData } from "node:worker_threads";
import { conforming } from "./conforming.mjs";
import { conform, conformMany, generate, steps } from "../npm/otbench.mjs";
import { compare } from "./testing.mjs";

const { module, options, at, alone } = workerData;

/* What a module exports; of one in CommonJS, what it gives to `require`. */
async function subjectOf() {
  const { default: own, ...named } = await import(module);
  if (typeof own === "function" && named.TextOperation === undefined) return { subject: own, accessors: named.accessors };
  return { subject: { ...own, ...named }, accessors: named.accessors ?? own?.accessors };
}

/* A value as it can be sent: itself, or its text. */
function sendable(value) {
  try {
    return structuredClone(value);
  } catch {
    return String(value?.stack ?? value);
  }
}

/* An error as it can be sent, with its own fields. */
function told(error) {
  const { name, message, session, kind, schedule, answer, laws, failures, actual, expected } = error;
  const given = { session, kind, schedule, answer, laws, failures: failures?.map(({ error: one, ...its }) => ({ ...its, error: told(one) })), ...("cause" in error && { cause: sendable(error.cause) }) };
  const fields = Object.fromEntries(Object.entries(given).filter(([, value]) => value !== undefined));
  return { name, message, fields, actual, expected };
}

const watcher = {
  onBegin(name, schedule) {
    Atomics.store(at, 0, 0);
    parentPort.postMessage({ session: { name, schedule } });
  },
  onInstruction: (its) => Atomics.store(at, 0, its),
  onFailure: (error) => parentPort.postMessage({ failure: told(error) }),
};

const post = (word) => (given) => parentPort.postMessage({ [word]: given });

try {
  const { subject, accessors } = await subjectOf();
  const read = { ...options, ...(accessors && { accessors }) };
  const all = { ...read, onSession: post("done"), ...(options.tap && { tap: post("line") }) };
  const result = alone === undefined ? await conforming(subject, all, { conform, conformMany, generate, steps }, watcher) : await compare(subject, alone, read);
  parentPort.postMessage({ result });
} catch (error) {
  parentPort.postMessage({ error: told(error) });
}
