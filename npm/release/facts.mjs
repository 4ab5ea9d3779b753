/* What is known of the repository: its commit, its sources, and whether the program of these sources is proved. */

import { spawnSync } from "node:child_process";
import fs from "node:fs";
import path from "node:path";
import { TOP } from "./modules.mjs";

export const PROGRAM = path.join(TOP, "crates/otbench/out/otbench");

/** A reason for which there is no release, in words. */
export class NoRelease extends Error {}

/** What a command of the repository prints; it has to succeed. */
export function said(command, ...words) {
  const { status, stdout, stderr, error } = spawnSync(command, words, { cwd: TOP, encoding: "utf8", maxBuffer: 1 << 28 });
  if (status !== 0) throw new NoRelease(`${path.relative(TOP, command) || command} ${words.join(" ")}: ${error?.message ?? stderr.trim()}`);
  return stdout.trim();
}

/** The commit, of which every file is as committed but those in dist/. */
export function commit() {
  const changed = said("git", "status", "--porcelain", "--", ".", ":!dist");
  if (changed !== "") throw new NoRelease(`commit first: these files are not as committed\n${changed}`);
  return said("git", "rev-parse", "HEAD");
}

/** A checksum over the content of what is proved. */
export const sources = () => said(path.join(TOP, "scripts/sources"));

/** Whether the proved program is there, of the sources as they are. */
export const isProved = () => spawnSync(path.join(TOP, "scripts/stamp"), ["check", PROGRAM, "proved"]).status === 0;

/** The version that the package has. */
export const packageVersion = () => JSON.parse(fs.readFileSync(path.join(TOP, "npm/package.json"), "utf8")).version;
