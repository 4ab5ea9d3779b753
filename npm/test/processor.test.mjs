// The processor time of processes.

import assert from "node:assert/strict";
import { spawn } from "node:child_process";
import { test } from "node:test";
import { setTimeout as pause } from "node:timers/promises";
import { processorOf } from "../../ports/processor.mjs";

const skip = process.platform !== "linux" && "the system does not tell it";

/* What is told of a command's group once it is as wanted, or after some seconds. */
async function toldOf(command, isWanted) {
  const child = spawn("sh", ["-c", command], { detached: true, stdio: "ignore" });
  try {
    let told = null;
    for (let tries = 0; tries < 200; tries++) {
      told = processorOf(child.pid);
      if (told !== null && isWanted(told)) break;
      await pause(50);
    }
    return told;
  } finally {
    process.kill(-child.pid, "SIGKILL");
  }
}

test("a process that runs takes time, also one that another one has started; one that waits does not want to run", { skip }, async () => {
  for (const command of ["while :; do :; done", "sh -c 'while :; do :; done'; true"]) {
    const { milliseconds, wants } = await toldOf(command, (told) => told.milliseconds >= 50);
    assert.ok(milliseconds >= 50 && wants, command);
  }
  const { milliseconds, wants } = await toldOf("exec sleep 60", (told) => !told.wants);
  assert.ok(milliseconds < 1000 && !wants);
});

test("of a group that is not there nothing is told", () => {
  assert.equal(processorOf(2 ** 30), null);
});
