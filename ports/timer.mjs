/*
 * Time that a driver has. While this process stands still (a busy machine, a long call, a machine that sleeps) at most a tick of it goes by: what came
 * in meanwhile is taken before the time is over.
 */

import { setImmediate } from "node:timers";

const TICK = 100; // milliseconds

/**
 * Calls `act` behind so many milliseconds, unless it is stopped before.
 * @param {number} milliseconds
 * @param {() => void} act
 */
export function behind(milliseconds, act) {
  const count = Math.max(1, Math.ceil(milliseconds / TICK));
  let [ticks, isStopped] = [count, false];
  const timer = setInterval(() => {
    if (--ticks > 0) return;
    clearInterval(timer);
    setImmediate(() => isStopped || act());
  }, Math.ceil(milliseconds / count));
  return {
    stop() {
      isStopped = true;
      clearInterval(timer);
    },
  };
}
