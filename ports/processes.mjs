/*
 * Drivers that are processes. One is started for each session, which it reads to the end of its input; or one is given several, each ended by a line
 * `%%`, and ends its lines for each by such a line. A process that takes too long or prints without end is ended, with what it has started.
 */

import { spawn } from "node:child_process";
import { processorOf, timeOf } from "./processor.mjs";
import { telling } from "./telling.mjs";
import { behind } from "./timer.mjs";

const MARK = "%%\n"; // ends a session where a process is given several
const MARKED = /(?:^|\n)%%\r?\n$/; // and ends what it prints of one
const LONGEST_MARK = "\n%%\r\n".length;
const MOST_TOLD = 65_536; // bytes of standard error, from its end, that are looked through

const alive = new Set();
process.on("exit", () => alive.forEach((it) => it.kill()));

const howEnded = (status, signal) => (signal ? `was ended by signal ${signal}` : status ? `ended with status ${status}` : null);

/* A process, and what it has printed since it was last asked. */
class Running {
  constructor([name, ...words], mostBytes) {
    this.mostBytes = mostBytes;
    this.child = spawn(name, words, { stdio: "pipe", detached: process.platform !== "win32" });
    this.why = null; // it was ended because it did this
    this.isSlow = false; // and that is its time
    this.isOver = false;
    this.over = new Promise((resolve) => {
      this.child.on("error", ({ message }) => {
        this.#take(this.errors, Buffer.from(message));
        resolve("cannot be run");
      });
      this.child.on("close", (status, signal) => resolve(howEnded(status, signal)));
    }).then((how) => this.#ended(how));
    this.child.stdin.on("error", () => {}); // it need not read what it is given: its lines or its end will tell
    this.child.stdout?.on("data", (piece) => this.#take(this.lines, piece));
    this.child.stderr?.on("data", (piece) => this.#take(this.errors, piece));
    this.forget();
    alive.add(this);
  }

  /* Begins with what it prints of the next session. `marked` is called once a line `%%` stands behind that. */
  forget(marked = () => {}) {
    this.lines = { pieces: [], size: 0, tail: "" };
    this.errors = { pieces: [], size: 0, tail: "" };
    this.marked = marked;
    this.before = this.child.pid === undefined ? 0 : timeOf(this.child.pid);
  }

  /* Whether it would run, and had less than half of a time of a processor for the session. */
  isStarved(milliseconds) {
    const now = this.isOver ? null : processorOf(this.child.pid);
    return now !== null && now.wants && now.milliseconds - this.before < milliseconds / 2;
  }

  #take(kept, piece) {
    kept.pieces.push(piece);
    kept.size += piece.length;
    kept.tail = (kept.tail + piece.toString("latin1", Math.max(piece.length - LONGEST_MARK, 0))).slice(-LONGEST_MARK);
    if (kept.size > this.mostBytes) this.end(`printed more than ${this.mostBytes.toLocaleString("en")} bytes`);
    else if (kept === this.lines && MARKED.test(kept.tail)) this.marked();
  }

  #ended(how) {
    this.isOver = true;
    alive.delete(this);
    return this.why === null ? how : `was ended: it ${this.why}`;
  }

  /* Ends it, and what it has started. */
  end(why, isSlow = false) {
    if (this.isOver || this.why !== null) return;
    Object.assign(this, { why, isSlow });
    this.kill();
    this.child.stdout.destroy();
    this.child.stderr.destroy();
  }

  kill() {
    try {
      if (process.platform === "win32") this.child.kill("SIGKILL");
      else process.kill(-this.child.pid, "SIGKILL");
    } catch {
      return; // it has ended
    }
  }

  /* What it printed, how it ended if otherwise than it should, and the line of its standard error that says most. */
  told(how) {
    const errors = Buffer.concat(this.errors.pieces).subarray(-MOST_TOLD);
    const said = how === null ? "" : telling(errors.toString());
    const trouble = how === null ? undefined : `the driver ${how}${said && `: ${said}`}`;
    return { lines: Buffer.concat(this.lines.pieces), how, trouble, isEnded: this.why !== null, isSlow: this.isSlow };
  }
}

const reasonOf = (signal) => String(signal.reason);

/* Does something while a process may be ended by a signal. */
async function endable(run, signal, during) {
  const onAbort = () => run.end(reasonOf(signal), true);
  signal?.addEventListener("abort", onAbort);
  try {
    return await during;
  } finally {
    signal?.removeEventListener("abort", onAbort);
  }
}

/**
 * @typedef {object} ProcessDriver
 * @property {(schedule: string, watch: { signal?: AbortSignal }) => Promise<import("./driving.mjs").Driven>} perform where the signal is aborted, the process is ended, and its reason says why
 * @property {(seconds: number) => Promise<string | null>} close ends its input; how it ended, if otherwise than it should
 * @property {string[]} performed the sessions that its process was given so far
 * @property {(milliseconds: number) => boolean} isStarved whether its process would run, and had less than half of this time of a processor for the session
 * @property {boolean} isProcess
 */

/** A driver with a process for each session. @returns {ProcessDriver} */
export function eachInOne(command, mostBytes) {
  let run = null;
  return {
    isProcess: true,
    performed: [],
    async perform(schedule, { signal } = {}) {
      const its = (run = new Running(command, mostBytes));
      its.child.stdin.end(schedule);
      this.performed = [];
      return its.told(await endable(its, signal, its.over));
    },
    isStarved: (milliseconds) => run?.isStarved(milliseconds) === true,
    close: async () => null,
  };
}

/** A driver with one process for several sessions. Where that ends or has to be ended, the next session has another one. @returns {ProcessDriver} */
export function keptFor(command, mostBytes) {
  let run = null;
  return {
    isProcess: true,
    performed: [],
    async perform(schedule, { signal } = {}) {
      if (run === null || run.isOver) [run, this.performed] = [new Running(command, mostBytes), []];
      const its = run;
      const isMarked = new Promise((resolve) => its.forget(() => resolve(true)));
      its.child.stdin.write(schedule.endsWith("\n") || schedule === "" ? schedule + MARK : `${schedule}\n${MARK}`);
      const how = await endable(its, signal, Promise.race([isMarked, its.over]));
      const told = its.told(how === true ? null : (how ?? "ended before the line %%"));
      return { ...told, lines: withoutMark(told.lines) };
    },
    isStarved: (milliseconds) => run?.isStarved(milliseconds) === true,
    async close(seconds) {
      if (run === null || run.isOver) return null;
      const timer = behind(1000 * seconds, () => run.end(`took more than ${seconds} s`));
      run.child.stdin.end();
      const how = await run.over;
      timer.stop();
      return how && `the driver ${how} behind its last session`;
    },
  };
}

function withoutMark(lines) {
  const tail = lines.subarray(-LONGEST_MARK).toString("latin1");
  const mark = MARKED.exec(tail);
  if (!mark) return lines;
  return lines.subarray(0, lines.length - mark[0].length + (mark[0].startsWith("\n") ? 1 : 0));
}
