/* What the program refuses, and how a JavaScript error tells it. */

import { textOf } from "../common/text.mjs";

/** A refused input, words that are not understood, or a fault of memory. docs/FORMATS.md has each kind. */
export class OtbenchError extends Error {
  /**
   * @param {string} kind the fault's name as the program prints it; "Usage" where the words or options are refused
   * @param {string} message
   * @param {{ line?: number | null, byte?: number, session?: number }} [place] the line of a text, from 1, or the byte of an image, from 0; of many sessions which, from 1
   */
  constructor(kind, message, { line, byte, session } = {}) {
    super(message);
    this.name = "OtbenchError";
    this.kind = kind;
    this.line = line ?? null;
    this.byte = byte ?? null;
    if (session !== undefined) this.session = session;
  }
}

/* The one reader of a fault's line, whose form docs/FORMATS.md gives: of images and traces, and of a text for `steps`, `asm` and `complete`, there is no other answer. */
const FAULT = /^otbench: (?:session (?<session>\d+): )?(?:line (?<line>\d+): |byte (?<byte>\d+): )?(?<kind>\w+)/;

/* The error of what the program printed on standard error. */
function errorOf({ status, errors }) {
  const said = textOf(errors).trimEnd();
  if (status === 2) return new OtbenchError("Usage", said.replace(/^error: /, ""));
  const { session, line, byte, kind } = FAULT.exec(said)?.groups ?? { kind: "Memory" }; // `stopped at` is said of what was performed only where there is no memory
  return new OtbenchError(kind, said.replace(/^otbench: /, ""), { line: line && Number(line), byte: byte && Number(byte), session: session && Number(session) });
}

/**
 * Throws where the program has printed a fault, or refused its words. A status of 1 alone is none: it is also that of a verdict
 * against, and of a refused instruction.
 * @param {import("./otbench.mjs").Answer} answer
 */
export function check(answer) {
  if (answer.status === 2 || answer.errors.length > 0) throw errorOf(answer);
  return answer;
}
