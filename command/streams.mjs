/* The streams of this process: what is printed goes out at once, and what is read is waited for. */

import fs from "node:fs";
import { isatty } from "node:tty";
import { visible } from "../common/visible.mjs";
import { bytesOf } from "../common/text.mjs";

/** The numbers of the streams. */
export const STDIN = 0;
export const STDOUT = 1;
export const STDERR = 2;

/* Whoever shares a stream with this process may have made it non-blocking: then it is tried again. */
const RETRY_MS = 5;
const pause = () => Atomics.wait(new Int32Array(new SharedArrayBuffer(4)), 0, 0, RETRY_MS);

function retried(call) {
  for (;;) {
    try {
      return call();
    } catch (error) {
      if (error.code === "EOF") return 0; // the end of a terminal or a pipe under Windows
      if (error.code !== "EAGAIN" && error.code !== "EINTR") throw error;
      pause();
    }
  }
}

/**
 * Writes bytes, all of them.
 * @param {number} stream
 * @param {Uint8Array} bytes
 */
export function writeAll(stream, bytes) {
  for (let at = 0; at < bytes.length; ) at += retried(() => fs.writeSync(stream, bytes, at));
}

/**
 * Reads the next bytes of a stream; answers how many, 0 at the end.
 * @param {number} stream
 * @param {Uint8Array} room
 */
export const readSome = (stream, room) => retried(() => fs.readSync(stream, room, 0, room.length, null));

/** What a stream is written of the program's bytes: what a terminal would obey stands there by its number. A character may be cut by the end of a piece. */
export function shownOn(stream) {
  if (!isatty(stream)) return (bytes) => bytes;
  const decoder = new TextDecoder("utf-8", { ignoreBOM: true });
  return (bytes) => bytesOf(visible(decoder.decode(bytes, { stream: true })), "the output");
}

/** Writes on standard error. What cannot be written there is lost, and the status tells. @param {string} text */
export function complain(text) {
  try {
    writeAll(STDERR, bytesOf(isatty(STDERR) ? visible(text) : text, "the text"));
  } catch {
    return;
  }
}

/** Says that the output cannot be written; nothing where nobody reads it any more. @param {NodeJS.ErrnoException} fault */
export function complainOfWriting({ code }) {
  if (code !== "EPIPE") complain("otbench: WriteFault\n");
}

/** Writes on the output, a text so that a terminal may have it; whether it could. @param {string | Uint8Array} text */
export function print(text) {
  try {
    writeAll(STDOUT, bytesOf(typeof text === "string" && isatty(STDOUT) ? visible(text) : text, "the text"));
    return true;
  } catch (fault) {
    complainOfWriting(fault);
    return false;
  }
}
