/*
 * The release in dist/:
 *
 *     otbench.mjs    the command in one file, with the engine in it
 *     otbench.html   the page in one file, with the engine in it
 *     VERSION.json   version, commit, whether the engine is that of the proved program, and checksums
 *     SHA256SUMS     for `sha256sum -c`
 */

import { createHash } from "node:crypto";
import fs from "node:fs";
import path from "node:path";
import { engineIn } from "./bundle.mjs";
import { NoRelease } from "./facts.mjs";
import { TOP } from "./modules.mjs";

export const DIST = path.join(TOP, "dist");

export const checksum = (bytes) => createHash("sha256").update(bytes).digest("hex");

/**
 * Writes VERSION.json and SHA256SUMS beside the files of a release.
 * @param {string} folder
 * @param {object} release
 */
export function seal(folder, release) {
  const sums = () => fs.readdirSync(folder).sort().map((file) => [file, checksum(fs.readFileSync(path.join(folder, file)))]);
  const version = { ...release, files: Object.fromEntries(sums()) };
  fs.writeFileSync(path.join(folder, "VERSION.json"), `${JSON.stringify(version, null, 2)}\n`);
  fs.writeFileSync(path.join(folder, "SHA256SUMS"), sums().map(([file, sum]) => `${sum}  ${file}\n`).join(""));
}

/** The release that lies there: what VERSION.json says, the command's text, and its engine. Each file is as it was written. */
export function opened(folder = DIST) {
  if (!fs.existsSync(path.join(folder, "VERSION.json"))) throw new NoRelease("there is no release in dist/");
  const sums = fs.readFileSync(path.join(folder, "SHA256SUMS"), "utf8").trimEnd().split("\n");
  for (const line of sums) {
    const [sum, file] = line.split("  ");
    const isThere = fs.existsSync(path.join(folder, file));
    if (!isThere || checksum(fs.readFileSync(path.join(folder, file))) !== sum)
      throw new NoRelease(`dist/${file} is ${isThere ? "not as the release wrote it" : "not there"}`);
  }
  const release = JSON.parse(fs.readFileSync(path.join(folder, "VERSION.json"), "utf8"));
  const command = fs.readFileSync(path.join(folder, "otbench.mjs"), "utf8");
  return { release, command, engine: engineIn(command) };
}
