// A pager for what is longer than the screen: PAGER, or less.

import { spawnSync } from "node:child_process";

const NOT_THERE = 127; // the shell's status of a command that it does not find

/** How many rows of a screen lines take. */
const rowsOf = (lines, columns) => lines.reduce((rows, line) => rows + Math.max(1, Math.ceil(line.length / columns)), 0);

/**
 * Whether lines are longer than the screen, and a person is there to turn its pages.
 * @param {string[]} lines @param {import("node:tty").ReadStream} input @param {import("node:tty").WriteStream} output
 */
export const isLong = (lines, input, output) => Boolean(input.isTTY && output.isTTY && output.rows) && rowsOf(lines, output.columns) >= output.rows;

/**
 * Shows a text by the pager. Answers whether there was one; `PAGER=` is none.
 * @param {string} text @param {import("node:tty").ReadStream} input
 */
export function page(text, input) {
  const { PAGER = "less", LESS = "FRX" } = process.env;
  if (PAGER === "") return false;
  const ignore = () => {};
  process.on("SIGINT", ignore); // the key that interrupts is the pager's
  input.setRawMode(false);
  try {
    const { status, error } = spawnSync("sh", ["-c", PAGER], { input: text, stdio: ["pipe", "inherit", "inherit"], env: { ...process.env, LESS } });
    return (error === undefined || error.code === "EPIPE") && status !== NOT_THERE;
  } finally {
    input.setRawMode(true);
    process.removeListener("SIGINT", ignore);
  }
}
