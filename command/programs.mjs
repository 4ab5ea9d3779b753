/*
 * What the command runs: the engine of the package, or a program of the system. Both read parts, one behind the other, each of bytes or a stream by its
 * number, and write on the streams of this process:
 *
 *     words, parts ──▶ a program ──▶ its status; the output and standard error of this process
 */

import { spawn, spawnSync } from "node:child_process";
import { once } from "node:events";
import { serve, serveStreams } from "../engine/host.mjs";
import { readRest, reasonOf, Unreadable } from "./files.mjs";
import { complainOfWriting, readSome, shownOn, STDERR, STDIN, STDOUT, writeAll } from "./streams.mjs";
import { joined } from "../common/text.mjs";

/**
 * @typedef {Uint8Array | number} Part
 * @typedef {object} Program
 * @property {boolean} hasThreads
 * @property {string | null} version what `version` prints; null: what the program says, and `about` it
 * @property {string} [about]
 * @property {(words: string[], input: Uint8Array) => import("../npm/otbench.mjs").Answer} ask runs it, on streams of its own
 * @property {(words: string[], parts: Part[], watch?: Watch) => Promise<Ended>} run runs it on the streams of this process
 * @typedef {{ status: number, isWritten: boolean }} Ended whether the output could be written; where not, that is said, and the status is 1
 * @typedef {object} Watch is called with what the program has printed, and with what it has said on standard error: bytes that are another's as soon as the call returns
 * @property {(bytes: Uint8Array) => void} [onWrite]
 * @property {(bytes: Uint8Array) => void} [onError]
 */

const ignored = () => {};

/* Writes what a program prints, until that cannot be: then `fault` says why. Writes what it says on standard error. */
function streamsOf({ onWrite = ignored, onError = ignored } = {}) {
  const [shown, said] = [STDOUT, STDERR].map(shownOn);
  const streams = { fault: null, write, error };
  function write(bytes) {
    try {
      writeAll(STDOUT, shown(bytes));
    } catch (fault) {
      streams.fault = fault;
      throw fault;
    }
    onWrite(bytes);
  }
  function error(bytes) {
    onError(bytes);
    writeAll(STDERR, said(bytes));
  }
  return streams;
}

/* How it ended, once a fault of writing is told. */
function ended(status, fault) {
  if (fault === null) return { status, isWritten: true };
  complainOfWriting(fault);
  return { status: 1, isWritten: false };
}

/* Reads parts one behind the other. */
function readerOf(parts) {
  let [part, at] = [0, 0];
  return (room) => {
    for (; part < parts.length; part++, at = 0) {
      const count = readPart(parts[part], at, room);
      at += count;
      if (count > 0) return count;
    }
    return 0;
  };
}

function readPart(part, at, room) {
  if (typeof part === "number") return readSome(part, room);
  const piece = part.subarray(at, at + room.length);
  room.set(piece);
  return piece.length;
}

/**
 * The engine.
 * @param {() => WebAssembly.Module} module compiled when it is first wanted
 * @param {string} version
 * @returns {Program}
 */
export function engineProgram(module, version) {
  return {
    hasThreads: false,
    version,
    ask: (words, input) => serve(module(), words, input),
    async run(words, parts, watch) {
      const streams = streamsOf(watch);
      const status = serveStreams(module(), words, { read: readerOf(parts), write: streams.write, error: streams.error });
      return ended(status, streams.fault);
    },
  };
}

/* Where a process was ended by a signal, this one ends by the same. */
function statusOf([status, signal]) {
  if (signal !== null) process.kill(process.pid, signal);
  return status ?? 1;
}

/**
 * A program of the system.
 * @param {string} path of an executable file
 * @param {string} about what `version` says of it
 * @returns {Program}
 */
export function nativeProgram(path, about) {
  const { OTBENCH, ...env } = process.env; // which may name a script like this one
  return {
    hasThreads: true,
    version: null,
    about,
    ask(words, input) {
      const { status, signal, error, stdout, stderr } = spawnSync(path, words, { input, env, maxBuffer: 2 ** 31 - 1 });
      if (error && !(error.code === "EPIPE" && status !== null)) throw new Unreadable(reasonOf(path, error)); // it need not read to the end: a verdict may come before
      if (signal) throw new Unreadable(`${path} was stopped by ${signal}`);
      return { status, output: stdout, errors: stderr };
    },
    async run(words, parts, watch) {
      const isShared = parts.length === 1 && parts[0] === STDIN; // then it reads as much as it wants, and when it wants
      const input = isShared ? null : joined(parts.map((part) => (typeof part === "number" ? readRest(part) : part)));
      const child = spawn(path, words, { env, stdio: [isShared ? "inherit" : "pipe", "pipe", "pipe"] });
      try {
        return ended(...(await follow(child, input, streamsOf(watch))));
      } catch (fault) {
        throw fault.syscall?.startsWith("spawn") ? new Unreadable(reasonOf(path, fault)) : fault;
      }
    },
  };
}

/* Hands a process what it reads, and on what it writes. Its status, and why the output could not be written or null. */
async function follow(child, input, streams) {
  const stop = (signal) => child.kill(signal);
  for (const signal of ["SIGTERM", "SIGHUP"]) process.once(signal, stop);
  child.stdin?.on("error", ignored); // it need not read to the end
  child.stdin?.end(input);
  child.stderr.on("data", (bytes) => {
    try {
      streams.error(bytes);
    } catch {
      child.stderr.destroy();
    }
  });
  child.stdout.on("data", (bytes) => {
    try {
      streams.write(bytes);
    } catch {
      child.stdout.destroy(); // the program sees that nobody reads it any more
    }
  });
  const end = await once(child, "close");
  for (const signal of ["SIGTERM", "SIGHUP"]) process.removeListener(signal, stop);
  return streams.fault === null ? [statusOf(end), null] : [1, streams.fault];
}
