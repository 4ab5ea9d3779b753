#!/usr/bin/env node
/*
 * The driver of a port: reads a schedule, performs it on the port, and prints a line of JSON for each instruction, as
 * `otbench steps` does. `otbench conform` compares the two. ot.js counts UTF-16 units and so do these lines; a schedule counts
 * Unicode scalar values. The two are one until a character past U+FFFF comes; `otbench port --utf16` stands between them then.
 *
 *     otbench port --utf16 -- node driver.js
 *     (cat session.ots; echo %%; otbench port --lines session.ots --utf16 -- node driver.js) | otbench view > session.html
 *
 *     --port FILE   a module, also of CommonJS, with TextOperation, Client and Server; without it oracle/otjs.js, a re-creation of ot.js
 *     --bug NAME    with one of the faults of bugs.js planted in it
 *     --faults FILE a module with other faults, as conformance/faults.js
 *     --short       documents only where one is read or a client joins
 *     --keep        several sessions, one after the other: each ends at a line %%, and so do its lines
 */

import fs from "node:fs";
import path from "node:path";
import { pathToFileURL } from "node:url";
import { parseArgs } from "node:util";
import { makePort } from "../../oracle/otjs.js";
import { bugs } from "./bugs.js";
import { drive } from "./drive.js";

/* What a module exports, as values that can be replaced; of one in CommonJS, what it gives to `require`. */
async function exportsOf(file) {
  const module = await import(pathToFileURL(path.resolve(file)));
  return { ...module.default, ...module };
}

function plant(name, faults, port) {
  if (!Object.hasOwn(faults, name)) throw new Error(`no such bug; there are ${Object.keys(faults).join(", ")}`);
  faults[name](port);
}

/* The texts of an input's sessions, each ended by a line %%. */
async function* sessions(input) {
  let text = "";
  for await (const piece of input.setEncoding("utf8")) {
    text += piece;
    for (let mark; (mark = /^%%\r?\n/m.exec(text)); text = text.slice(mark.index + mark[0].length)) yield text.slice(0, mark.index);
  }
}

async function main() {
  const text = { type: "string" };
  const flag = { type: "boolean" };
  const { values } = parseArgs({ options: { port: text, bug: text, faults: text, short: flag, keep: flag } });
  const port = values.port === undefined ? makePort() : await exportsOf(values.port);
  if (values.bug !== undefined) plant(values.bug, values.faults === undefined ? bugs : (await exportsOf(values.faults)).bugs, port);
  const print = (schedule, end) => process.stdout.write(drive(schedule, port, values).join("\n") + end);
  if (values.keep) for await (const schedule of sessions(process.stdin)) print(schedule, "\n%%\n");
  else print(fs.readFileSync(0, "utf8"), "\n");
}

main().catch((fault) => {
  console.error(`driver: ${fault.message}`);
  process.exitCode = 1;
});
