/* Puts the package together in a folder. Paths in it are the repository's, so what stands in it finds its parts in both. */

import { spawnSync } from "node:child_process";
import fs from "node:fs";
import path from "node:path";
import { examplesOf } from "../../viewer/course.mjs";
import { page } from "../../viewer/html.mjs";
import { TOP } from "./modules.mjs";

/* Files, and folders with all that is in them. */
const HELD = [
  "LICENSE",
  "CHANGELOG.md",
  "command",
  "common",
  "conformance",
  "docs/FORMATS.md",
  "docs/GUIDE.md",
  "docs/session.svg",
  "engine/host.mjs",
  "examples",
  "npm",
  "oracle/otjs.js",
  "ports",
  "recorder",
  "terminal",
];

const LEFT_OUT = new Set([
  "conformance/test",
  "examples/port/port.test.mjs",
  "npm/package.json",
  "npm/README.md",
  "npm/release",
  "npm/test",
  "recorder/browser",
  "recorder/test",
  "terminal/test",
]);

/* The viewer's page with a place for the engine, which `otbench view` fills. */
export function viewerPage() {
  return page({ host: path.join(TOP, "engine/host.mjs"), module: "/* the module */" }, examplesOf(path.join(TOP, "examples")));
}

const isHeld = (file) => !LEFT_OUT.has(path.relative(TOP, file)) && path.basename(file) !== "__pycache__";

/**
 * Puts the package together.
 * @param {string} folder an empty one, or none yet
 * @param {Uint8Array} engine
 * @param {{ version: string, commit: string | null, proved: boolean }} release
 */
export function stage(folder, engine, release) {
  const to = (file) => path.join(folder, file);
  for (const held of HELD) fs.cpSync(path.join(TOP, held), to(held), { recursive: true, filter: isHeld });
  for (const name of ["package.json", "README.md"]) fs.copyFileSync(path.join(TOP, "npm", name), to(name));
  fs.copyFileSync(to("recorder/recorder.js"), to("recorder/recorder.cjs")); // for require
  fs.mkdirSync(to("viewer"));
  fs.writeFileSync(to("viewer/page.html"), viewerPage());
  fs.mkdirSync(to("engine/out"));
  fs.writeFileSync(to("engine/out/otbench.wasm"), engine);
  fs.writeFileSync(to("VERSION.json"), `${JSON.stringify(release, null, 2)}\n`);
}

/**
 * The archive of a staged folder, which `npm pack` makes.
 * @param {string} folder
 * @param {string} to where it is put
 * @returns {string} its path
 */
export function pack(folder, to) {
  const words = ["pack", "--json", "--offline", "--pack-destination", path.resolve(to), path.resolve(folder)];
  const ran = spawnSync("npm", words, { encoding: "utf8", shell: process.platform === "win32" });
  if (ran.status !== 0) throw new Error(`npm pack: ${ran.error?.message ?? ran.stderr}`);
  return path.join(path.resolve(to), JSON.parse(ran.stdout)[0].filename);
}
