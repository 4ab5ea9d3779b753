// The lines that a person has typed in earlier sessions, in the folder for the state of programs (XDG_STATE_HOME, or ~/.local/state).

import { appendFileSync, mkdirSync, readFileSync, writeFileSync } from "node:fs";
import { homedir } from "node:os";
import path from "node:path";

const MOST = 1000; // lines that are kept

/** Calls, and gives another value where a file cannot be had: a session goes on without its history. */
function orElse(call, value) {
  try {
    return call();
  } catch {
    return value;
  }
}

/** The history: its lines, the last one first, and a function that adds one. */
export function openHistory() {
  const folder = path.join(process.env.XDG_STATE_HOME || path.join(homedir(), ".local/state"), "otbench");
  const file = path.join(folder, "debug-history");
  const all = orElse(() => readFileSync(file, "utf8"), "").split("\n").filter(Boolean);
  const lines = all.slice(-MOST);
  if (all.length > 2 * MOST) orElse(() => writeFileSync(file, `${lines.join("\n")}\n`, { mode: 0o600 }), null);
  let last = lines.at(-1);
  const add = (line) => {
    if (line.trim() === "" || line === last) return;
    last = line;
    orElse(() => {
      mkdirSync(folder, { recursive: true, mode: 0o700 });
      appendFileSync(file, `${line}\n`, { mode: 0o600 });
    }, null);
  };
  return { lines: lines.reverse(), add };
}
