#!/usr/bin/env node
/*
 * The sample port over one schedule after another without a process for each: reads lines `{"text": SCHEDULE, "short": BOOLEAN, "bug": NAME}`, the bug one of
 * examples/port/bugs.js or none, and answers each with the array of the lines that the driver prints.
 */

import path from "node:path";
import readline from "node:readline";
import { pathToFileURL } from "node:url";
import { bugs } from "../examples/port/bugs.js";
import { makePort } from "../oracle/otjs.js";

const { drive } = await import(pathToFileURL(path.resolve(process.argv[2])));

function portWith(bug) {
  const port = makePort();
  if (bug) bugs[bug](port);
  return port;
}

const ports = new Map();
readline.createInterface({ input: process.stdin }).on("line", (line) => {
  const { text, short, bug } = JSON.parse(line);
  if (!ports.has(bug)) ports.set(bug, portWith(bug));
  console.log(JSON.stringify(drive(text, ports.get(bug), { short })));
});
