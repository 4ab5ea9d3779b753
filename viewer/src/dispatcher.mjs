// The engine behind its worker: it answers words and inputs, gives of the lines of steps only what has changed, and performs the debugger's commands.

import { bytesOf, textOf } from "../../common/text.mjs";
import { partsOf, reasonIn } from "../../common/told.mjs";
import { readRun } from "../../npm/answers.mjs";
import { Commanded } from "./commanded.mjs";

/**
 * @typedef {{ status: number, output: Uint8Array, errors: Uint8Array }} Served
 * @typedef {(words: string[], input: Uint8Array) => Served} Serve
 */

const LF = 10;

/** How many bytes at the front of both are whole equal lines. */
export function equalFront(before, after) {
  const least = Math.min(before.length, after.length);
  let equal = 0;
  let whole = 0;
  for (; equal < least && before[equal] === after[equal]; equal++) if (after[equal] === LF) whole = equal + 1;
  return whole;
}

function countLines(bytes, to) {
  let count = 0;
  for (let i = 0; i < to; i++) if (bytes[i] === LF) count++;
  return count;
}

/** Answers jobs, one after the other. */
export class Dispatcher {
  /** @param {Serve} serve */
  constructor(serve) {
    this.serve = serve;
    this.last = new Uint8Array(0);
    this.commanded = new Commanded((words, text) => this.#asked(words, text));
  }

  /** @param {string[]} words @param {Uint8Array} input */
  ask(words, input) {
    const { status, output, errors } = this.serve(words, input);
    return { status, output, errors: new TextDecoder().decode(errors) };
  }

  /**
   * The lines of a schedule's steps, as what changed: how many lines at the front are those of the last time, and the others. Of a
   * text that is refused { rest: null }, with what check says of its fault as JSON; with a stop, its reason as explain has it.
   * @param {string} text
   */
  steps(text) {
    const input = new TextEncoder().encode(text);
    const { status, output, errors } = this.ask(["steps"], input);
    if (output.length === 0) return { rest: null, errors, fault: status ? this.#fault(input) : "" };
    const equal = equalFront(this.last, output);
    this.last = output;
    const rest = new TextDecoder().decode(output.subarray(equal));
    return { keep: countLines(output, equal), rest, errors: "", refusal: status ? this.#refusal(input, output) : "" };
  }

  /** See `Commanded.perform`. */
  debug(shown, line) {
    return this.commanded.perform(shown, line);
  }

  /** What a line of the debugger may go on with, as { words }. */
  complete(shown, line) {
    return { words: this.commanded.complete(shown, line) };
  }

  /** The sessions that `generate --every` lists, each with the server's document at its end, as JSON. @param {string[]} words */
  every(words) {
    const { status, output, errors } = this.ask(["generate", "--every", ...words], new Uint8Array(0));
    if (status) throw new Error(errors.trim());
    const texts = textOf(output).split("%%\n").slice(0, -1);
    const documentOf = (text) => JSON.stringify(readRun(textOf(this.ask(["run", "--json"], bytesOf(text, "a session")).output)).server.document);
    return { sessions: texts.map((text) => ({ text, document: documentOf(text) })) };
  }

  /* What the debugger asks. */
  #asked(words, text) {
    const { status, output, errors } = this.ask(words, bytesOf(text, "the schedule"));
    return { status, output: textOf(output), errors };
  }

  /* The fault of a text as JSON; there may be none where memory runs out. */
  #fault(input) {
    return new TextDecoder().decode(this.ask(["check", "--json"], input).output);
  }

  /* Why the last instruction is refused; nothing where memory runs out. The lines of steps are of the opening, of each instruction and of the end. */
  #refusal(input, lines) {
    const told = textOf(this.ask(["explain"], input).output);
    const { instructions } = partsOf(told, countLines(lines, lines.length) - 2, false);
    return instructions.length > 0 ? reasonIn(instructions.at(-1)) : "";
  }
}
