/* The job file does what the guide says of it. */

import assert from "node:assert/strict";
import { spawnSync } from "node:child_process";
import fs from "node:fs";
import os from "node:os";
import path from "node:path";
import { test } from "node:test";
import { fileURLToPath } from "node:url";

const TOP = fileURLToPath(new URL("../..", import.meta.url));
const JOB = fs.readFileSync(`${TOP}conformance/ci.yml`, "utf8");
const [, COMMAND] = /^ +run: (.*)$/m.exec(JOB);
const PROGRAM = process.env.OTBENCH ?? [`${TOP}crates/otbench/out/otbench`, `${TOP}out/otbench`].find((file) => fs.existsSync(file));

test("the guide shows the job", () => {
  const shown = JOB.replace(/^(?=.)/gm, "    ");
  assert.ok(fs.readFileSync(`${TOP}docs/GUIDE.md`, "utf8").includes(shown));
});

/* Runs the job's command in a folder with the port's driver and the repository: its status and the lines of its output. */
function runJob(...words) {
  const folder = fs.mkdtempSync(path.join(os.tmpdir(), "job "));
  try {
    fs.symlinkSync(TOP, path.join(folder, "otbench"));
    fs.writeFileSync(path.join(folder, "my-driver"), `#!/bin/sh\nexec node otbench/examples/port/driver.js ${words.join(" ")}\n`, { mode: 0o755 });
    const command = COMMAND.replace("otbench/otbench", "node otbench/command/cli.mjs").replace("--tap", "--tap --sessions 5 --reduce-seconds 1");
    const { status, stdout } = spawnSync("sh", ["-ec", command], { cwd: folder, encoding: "utf8", env: { ...process.env, OTBENCH: PROGRAM } });
    return { status, lines: stdout.split("\n") };
  } finally {
    fs.rmSync(folder, { recursive: true, force: true });
  }
}

const skip = PROGRAM === undefined && "the program is not built, and OTBENCH names none";

test("it passes for a port that conforms", { skip }, () => {
  const { status, lines } = runJob();
  const points = lines.filter((line) => line.startsWith("ok ")).length;
  assert.deepEqual([status, lines[0], lines.at(-2)], [0, "TAP version 13", `1..${points}`]);
});

test("it fails for one that does not", { skip }, () => {
  const { status, lines } = runJob("--bug", "tie");
  assert.equal(status, 1);
  assert.ok(lines.some((line) => /^not ok \d+ - transform-tie$/.test(line)));
});
