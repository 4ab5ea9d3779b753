/* The native program that OTBENCH names, or the repository's. */

import { existsSync } from "node:fs";
import { fileURLToPath } from "node:url";
import { nativeProgram } from "../../command/programs.mjs";

export const PROGRAM = process.env.OTBENCH || fileURLToPath(new URL("../../crates/otbench/out/otbench", import.meta.url));
export const options = { skip: existsSync(PROGRAM) ? false : "the program is not built" };

/** The command. */
export const COMMAND = fileURLToPath(new URL("../../command/cli.mjs", import.meta.url));

/** Asks the program. @param {string[]} words @param {string | Uint8Array} text */
export function ask(words, text) {
  const { status, output, errors } = nativeProgram(PROGRAM, "").ask(words, text);
  return { status, output: output.toString(), errors: errors.toString() };
}
