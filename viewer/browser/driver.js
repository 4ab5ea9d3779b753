/* What the drivers of both browsers share: the start, calls over a socket, each with an answer or a fault within a limit, frames, and the end. */

import { spawn } from "node:child_process";
import fs from "node:fs";
import os from "node:os";
import path from "node:path";

export const wait = (milliseconds) => new Promise((done) => setTimeout(done, milliseconds));

/* How long a browser may take for an answer, in milliseconds: on a machine of 4 cores with a load of 20 Firefox takes more than two minutes to start. */
const LIMIT = 300_000;

/* What a promise gives, or a fault where it gives nothing within the limit. */
export function within(promise) {
  let timer;
  const late = new Promise((_, failed) => {
    timer = setTimeout(() => failed(new Error(`no answer within ${LIMIT / 1000} s`)), LIMIT);
  });
  return Promise.race([promise, late]).finally(() => clearTimeout(timer));
}

const remove = (folder) => fs.rmSync(folder, { recursive: true, force: true, maxRetries: 30, retryDelay: 100 });

/* Starts a browser with a folder of its own, and opens its page. Where that fails the browser is killed. */
export async function start(name, command, wordsFor, open) {
  const folder = fs.mkdtempSync(path.join(os.tmpdir(), `otbench-${name}-`));
  const child = spawn(command, wordsFor(folder), { stdio: ["ignore", "ignore", "pipe"] });
  child.on("error", (fault) => console.error(`${name}: ${fault.message}`));
  child.stderr.resume().unref();
  try {
    return await open(child, folder);
  } catch (fault) {
    child.kill("SIGKILL");
    remove(folder);
    throw fault;
  }
}

/* In the page: two frames later, true; where the browser draws none for seconds, false. A page that was busy gets its frame in the second wait. */
const twoFrames = () =>
  new Promise((done) => {
    requestAnimationFrame(() => requestAnimationFrame(() => done(true)));
    setTimeout(() => setTimeout(() => done(false), 1000), 4000);
  });

/**
 * A browser and its one page. A driver adds `run`, which evaluates an expression in the page, and `heard`, which takes the events;
 * `closing` names the call that ends the browser.
 */
export class Driver {
  #calls = new Map();
  #count = 0;
  #socket;

  constructor({ name, child, folder, socket, closing }) {
    Object.assign(this, { name, child, folder, closing, exceptions: [] });
    this.#socket = socket;
    socket.on("message", (text) => this.#receive(JSON.parse(text)));
    socket.on("close", () => {
      for (const { failed } of this.#calls.values()) failed(new Error("the connection was closed"));
    });
  }

  #receive({ id, result, error, message, method, params }) {
    const call = this.#calls.get(id);
    if (call && error) call.failed(new Error(message ? `${error}: ${message}` : error.message));
    else if (call) call.done(result);
    else if (method) this.heard(method, params);
  }

  /* The answer to a call. A fault names the call. */
  async send(method, params = {}) {
    const id = ++this.#count;
    const answer = new Promise((done, failed) => this.#calls.set(id, { done, failed }));
    try {
      if (!this.#socket.isOpen) throw new Error("the connection was closed before");
      this.#socket.send(JSON.stringify({ id, method, params }));
      return await within(answer);
    } catch (fault) {
      throw new Error(`${this.name}, ${method} ${JSON.stringify(params).slice(0, 300)}: ${fault.message}`, { cause: fault });
    } finally {
      this.#calls.delete(id);
    }
  }

  /* Waits until the page has drawn. */
  async drawn() {
    if (!(await this.run(`(${twoFrames})()`))) console.error(`${this.name}: drew no frame in 5 s`);
  }

  async close() {
    const { child } = this;
    if (child.exitCode === null && child.signalCode === null) {
      const gone = new Promise((done) => child.once("exit", done));
      if (this.#socket.isOpen) this.send(this.closing).catch(() => {}); // the answer may come too late to be read
      else child.kill("SIGKILL");
      await within(gone).catch(() => {
        child.kill("SIGKILL");
        throw new Error(`${this.name} did not end`);
      });
    }
    remove(this.folder);
  }
}
