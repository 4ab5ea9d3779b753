// One writer of a file at a time: who has made FILE.lock beside it.

import { closeSync, openSync, realpathSync, rmSync } from "node:fs";

const TRIES = 500;
const PAUSE_MS = 20;

const pause = () => Atomics.wait(new Int32Array(new SharedArrayBuffer(4)), 0, 0, PAUSE_MS);

/** Another one writes, or died while it did. */
export class Locked extends Error {}

/** Makes the lock, waiting for another one's end. */
function acquire(lock) {
  for (let left = TRIES; ; left--) {
    try {
      return closeSync(openSync(lock, "wx"));
    } catch (fault) {
      if (fault.code !== "EEXIST") throw fault;
      if (left === 0) throw new Locked(`${lock} is there: another edit is at work; if there is none, remove that file`);
      pause();
    }
  }
}

const STOPPING = ["SIGINT", "SIGTERM", "SIGHUP"];

/**
 * Calls while nobody else does that for this file. What stops a process is held up until the lock is removed.
 * @template T @param {string} file @param {() => T} call which does not wait for anything @returns {T}
 */
export function alone(file, call) {
  const lock = `${realpathSync(file)}.lock`;
  const holdUp = () => {};
  for (const signal of STOPPING) process.on(signal, holdUp);
  try {
    acquire(lock);
    try {
      return call();
    } finally {
      rmSync(lock);
    }
  } finally {
    for (const signal of STOPPING) process.removeListener(signal, holdUp);
  }
}
