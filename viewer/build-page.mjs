#!/usr/bin/env node
/* Writes the page with the engine in it: viewer/build-page.mjs ENGINE.wasm TO.html. The engine's host is engine/host.mjs, or a third word. */

import fs from "node:fs";
import path from "node:path";
import { fileURLToPath } from "node:url";
import zlib from "node:zlib";
import { examplesOf } from "./course.mjs";
import { page } from "./html.mjs";

const USAGE = "usage: viewer/build-page.mjs ENGINE.wasm TO.html [HOST.mjs]";
const words = process.argv.slice(2);
if (words.length === 1 && (words[0] === "-h" || words[0] === "--help")) {
  console.log(USAGE);
  process.exit();
}
if (words.length < 2 || words.length > 3 || words.some((word) => word.startsWith("-"))) {
  console.error(USAGE);
  process.exit(2);
}
const top = fileURLToPath(new URL("..", import.meta.url));
const [engine, to, host = path.join(top, "engine/host.mjs")] = words;
try {
  const module = zlib.gzipSync(fs.readFileSync(engine), { level: 9 }).toString("base64");
  const html = page({ host, module }, examplesOf(path.join(top, "examples")));
  fs.mkdirSync(path.dirname(path.resolve(to)), { recursive: true });
  fs.writeFileSync(to, html);
} catch (fault) {
  console.error(`build-page: ${fault.message}`);
  process.exit(1);
}
