// otbench port on a driver in another language: a port in Python, and twenty faults of its writer's.

import assert from "node:assert/strict";
import { spawn, spawnSync } from "node:child_process";
import path from "node:path";
import { test } from "node:test";
import { fileURLToPath } from "node:url";
import { TOP } from "./files.mjs";

const CLI = path.join(TOP, "command/cli.mjs");
const DRIVER = fileURLToPath(new URL("ports/port.py", import.meta.url));
const AT_A_TIME = 4;

/* The faults, and how many instructions are left of a session that shows one; null where the report is of another form. */
const FAULTS = {
  "insertion-behind-a-deletion": 4,
  "deletions-apart": 4,
  "blanks-trimmed": 3,
  "one-letter-composed": 4,
  "deleted-text-stays": 4,
  "second-goes-first": 6,
  "bytes-retained": 6,
  "both-delete": 6,
  "sent-too-old": 8,
  "third-edit-lost": 4,
  "revision-kept": 4,
  "buffer-left-alone": 7,
  "buffer-forgotten": 6,
  "log-of-500": null,
  "joined-at-0": 5,
  "newest-first": 8,
  "hangs-at-the-ninth": null,
  "log-of-all-sessions": null,
  "letters-escaped-twice": 3,
  "ends-badly": null,
};

/* What the command says of the driver with a fault. */
async function tried(fault) {
  const { OTBENCH, ...env } = process.env;
  const words = ["port", "--keep-driver", "--jobs", "1", "--sessions", "20", "--seconds", fault?.startsWith("hangs") ? "1" : "20", "--reduce-seconds", fault?.startsWith("hangs") ? "1" : "30", "--", "python3", "-B", DRIVER, ...(fault ? [fault] : [])];
  const child = spawn(process.execPath, [CLI, ...words], { env });
  let said = "";
  for (const stream of [child.stdout, child.stderr]) stream.setEncoding("utf8").on("data", (piece) => (said += piece));
  const status = await new Promise((resolve) => child.on("close", resolve));
  return { status, said };
}

const skip = spawnSync("python3", ["--version"]).status !== 0 && "no python3 is there";

test("a port in Python conforms", { skip }, async () => {
  const { status, said } = await tried(null);
  assert.equal(status, 0, said);
});

test("each of its faults is found, most in a session of a few instructions", { skip }, async () => {
  const left = Object.entries(FAULTS);
  const next = async () => {
    for (let row; (row = left.shift()); ) {
      const [fault, most] = row;
      const { status, said } = await tried(fault);
      assert.equal(status, 1, `${fault}: ${said}`);
      if (most !== null) assert.ok(Number(/(\d+)(?: instructions)?(?:; the last of .*)?\n\n/.exec(said)?.[1]) <= most, `${fault}: ${said.slice(0, 2000)}`);
    }
  };
  await Promise.all(Array.from({ length: AT_A_TIME }, next));
});
