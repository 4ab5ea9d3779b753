/* The sessions of the corpus that are stored. In the command of one file a module that holds them stands in the place of this one. */

import { readdirSync, readFileSync } from "node:fs";

const FOLDER = new URL("../conformance/sessions/", import.meta.url);
const ENDING = ".ots";

/** @returns {{ name: string, schedule: string }[]} */
export function storedSessions() {
  const files = readdirSync(FOLDER).filter((file) => file.endsWith(ENDING)).sort();
  return files.map((file) => ({ name: file.slice(0, -ENDING.length), schedule: readFileSync(new URL(file, FOLDER), "utf8") }));
}
