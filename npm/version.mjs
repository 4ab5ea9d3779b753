/* Which release this is: what a release's VERSION.json says, else what the package says. */

import { existsSync, readFileSync } from "node:fs";

const read = (file) => JSON.parse(readFileSync(file, "utf8"));

const RELEASE = new URL("../VERSION.json", import.meta.url);
const PACKAGE = new URL("./package.json", import.meta.url);

/** @returns {{ version: string, commit: string | null, proved: boolean }} */
export function release() {
  if (existsSync(RELEASE)) return read(RELEASE);
  return { version: read(PACKAGE).version, commit: null, proved: false };
}
