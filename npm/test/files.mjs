/* Where the tests find what they try. */

import fs from "node:fs";
import os from "node:os";
import path from "node:path";
import { fileURLToPath } from "node:url";

export const TOP = fileURLToPath(new URL("../..", import.meta.url));

/** @param {string} name a file of examples/ */
export const example = (name) => fs.readFileSync(`${TOP}examples/${name}`, "utf8");

/** The native program, to compare with: where it is not built, OTBENCH_NATIVE may name one; else null. */
export const NATIVE = process.env.OTBENCH_NATIVE ?? [`${TOP}crates/otbench/out/otbench`].find((file) => fs.existsSync(file)) ?? null;

/** A folder that is gone when the process ends. */
export function temporaryFolder() {
  const folder = fs.mkdtempSync(path.join(os.tmpdir(), "otbench package "));
  process.on("exit", () => fs.rmSync(folder, { recursive: true, force: true, maxRetries: 10 }));
  return folder;
}
