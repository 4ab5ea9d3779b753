// What a release consists of: the command in one file, checksums, and the words of ./release.

import assert from "node:assert/strict";
import { spawnSync } from "node:child_process";
import fs from "node:fs";
import path from "node:path";
import { test } from "node:test";
import { bundle, engineIn, isOfTheseModules } from "../release/bundle.mjs";
import { checksum, opened, seal } from "../release/dist.mjs";
import { example, temporaryFolder, TOP } from "./files.mjs";

const folder = temporaryFolder();
const ENGINE = fs.readFileSync(`${TOP}engine/out/otbench.wasm`);
const RELEASE = { version: "1.2.3", commit: "0123456789abcdef", proved: true };

/* The least module that is one, for what does not run it. */
const EMPTY = Buffer.from("0061736d01000000", "hex");

test("the command in one file answers by itself, and has the engine in it", () => {
  const command = path.join(folder, "otbench.mjs");
  fs.writeFileSync(command, bundle(ENGINE, RELEASE));
  const call = (file, words, input = "") => {
    const { status, stdout, stderr } = spawnSync(process.execPath, [file, ...words], { cwd: folder, input, encoding: "utf8", maxBuffer: 8 << 20 });
    return [status, stdout, stderr];
  };
  assert.deepEqual(call(command, ["--version"]), [0, "otbench 1.2.3 (commit 0123456789abcdef, proved)\n", ""]);
  const input = `${example("weak-order.ots")}%%\n{"at":1}\n`;
  for (const words of [["conform"], ["help"], ["run"]]) assert.deepEqual(call(command, words, input), call(`${TOP}command/cli.mjs`, words, input));
  const [status, page] = call(command, ["view"], input);
  assert.equal(status, 0);
  assert.match(page, /<pre hidden id="schedule">\n; /);
  assert.ok(engineIn(fs.readFileSync(command, "utf8")).equals(ENGINE));
});

test("whether a command is of the modules as they are", () => {
  const command = bundle(EMPTY, RELEASE);
  assert.ok(isOfTheseModules(command, RELEASE));
  assert.ok(!isOfTheseModules(command.replace("const STDIN = 0", "const STDIN = 1"), RELEASE));
  assert.ok(!isOfTheseModules(command, { ...RELEASE, commit: "fedcba9876543210" }));
});

test("a release is opened as it was written, and not otherwise", () => {
  const dist = path.join(folder, "dist");
  fs.mkdirSync(dist);
  assert.throws(() => opened(dist), { message: "there is no release in dist/" });
  fs.writeFileSync(path.join(dist, "otbench.mjs"), bundle(EMPTY, RELEASE));
  fs.writeFileSync(path.join(dist, "otbench.html"), "<!doctype html>");
  seal(dist, { ...RELEASE, sources: "abc" });
  const { release, engine } = opened(dist);
  assert.ok(engine.equals(EMPTY));
  assert.deepEqual({ ...release, files: null }, { ...RELEASE, sources: "abc", files: null });
  assert.deepEqual(release.files["otbench.html"], checksum("<!doctype html>"));
  const { status } = spawnSync("sha256sum", ["--check", "--strict", "SHA256SUMS"], { cwd: dist });
  assert.equal(status, 0);
  for (const file of ["otbench.html", "otbench.mjs", "VERSION.json"]) {
    const content = fs.readFileSync(path.join(dist, file));
    fs.appendFileSync(path.join(dist, file), "\n");
    assert.throws(() => opened(dist), { message: `dist/${file} is not as the release wrote it` });
    fs.writeFileSync(path.join(dist, file), content);
  }
  fs.rmSync(path.join(dist, "otbench.html"));
  assert.throws(() => opened(dist), { message: "dist/otbench.html is not there" });
});

test("words of ./release that are not understood", () => {
  for (const words of [[], ["1.0"], ["0.1.0", "0.1.1"], ["--check", "--pack"], ["--bogus"], ["--pack", "--engine", "x"]]) {
    const { status, stderr } = spawnSync(`${TOP}release`, words, { encoding: "utf8" });
    assert.equal(status, 2, words.join(" "));
    assert.match(stderr, /^(usage: \.\/release|release: Unknown option)/);
  }
  const { status, stdout, stderr } = spawnSync(`${TOP}release`, ["--help"], { encoding: "utf8" });
  assert.deepEqual([status, stderr, stdout.startsWith("usage: ./release VERSION")], [0, "", true]);
});
