/* How long a driver may take for a session. Times are in milliseconds, sizes in characters of a schedule's text. */

import os from "node:os";

export const LARGE = 8192; // such a session may take twice as long, and is measured apart
const SLOWER = 3; // a session may take so many times as long as the longest before it
const SUSPECT = 1000; // behind the longest before it by so much a session may hang: it is reduced while it has the rest of its time
const FOUND = 500; // the same of a smaller session of one that may hang

/** How many processes wait for each processor, 1 at least. */
export const crowd = () => Math.max(1, os.loadavg()[0] / os.availableParallelism());

/** Of a port in this process: the same time for each session, twice that for a large one, and more on a busy machine. */
export function steadyPace(seconds, busy = crowd) {
  const most = (size) => 1000 * seconds * (size > LARGE ? 2 : 1) * busy();
  return { most, suspect: most, found: most, add() {} };
}

/** Of drivers that are processes, which take time to start: what the sessions took that conform decides, plain ones and large ones, and how busy the machine is. */
export class Pace {
  constructor(seconds, busy = crowd) {
    this.seconds = seconds;
    this.busy = busy;
    this.taken = new Map(); // by whether a session is large: the shortest and the longest time
  }

  /** Notes a session that conforms. */
  add(size, took) {
    const { shortest = took, longest = took } = this.taken.get(size > LARGE) ?? {};
    this.taken.set(size > LARGE, { shortest: Math.min(took, shortest), longest: Math.max(took, longest) });
  }

  /** The most that a session may take. */
  most(size) {
    const isLarge = size > LARGE;
    const own = 1000 * this.seconds * (isLarge || this.taken.size === 0 ? 2 : 1) * this.busy();
    return Math.max(own, SLOWER * (this.taken.get(isLarge)?.longest ?? 0));
  }

  /** Behind what time a session may hang. */
  suspect = (size) => this.#soon(size, SUSPECT);

  /** The time of a session that is smaller than one that may hang. */
  found = (size) => this.#soon(size, FOUND);

  /* As long as the longest, and then `least`, or more where sessions took unlike times; of a session of which that is not known, the most that it may take. */
  #soon(size, least) {
    const plain = this.taken.get(false);
    if (size > LARGE || !plain) return this.most(size);
    return Math.min(plain.longest + Math.max(least, SLOWER * (plain.longest - plain.shortest)), this.most(size));
  }
}
