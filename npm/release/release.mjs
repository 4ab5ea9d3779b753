/* ./release: makes the release, checks it, packs it. USAGE has the words. */

import { spawnSync } from "node:child_process";
import fs from "node:fs";
import path from "node:path";
import { parseArgs } from "node:util";
import { serve } from "../../engine/host.mjs";
import { bundle, isOfTheseModules } from "./bundle.mjs";
import { checksum, DIST, opened, seal } from "./dist.mjs";
import { commit, isProved, NoRelease, packageVersion, PROGRAM, sources } from "./facts.mjs";
import { TOP } from "./modules.mjs";
import { pack, stage } from "./stage.mjs";

const USAGE = `usage: ./release VERSION [--engine FILE]   builds the engine, the command and the page, and writes dist/
       ./release --check [--engine FILE]   says of which sources the release in dist/ is
       ./release --pack [FOLDER]           makes the package's archive of the release in dist/: in FOLDER, or out/

VERSION is what npm/package.json and the program say. All files are committed, and the proved program is built.
--engine FILE takes an engine that is built already. A release of it counts as unproved; --check compares with it.
Status 0: done; of --check also where there is no release, or the sources are others than the release's, which is said. 1: a fault, and
dist/ is as it was; of --check that a file is not as the release wrote it, or that the same sources give another engine. 2: words that
are not understood.
`;

/* How many sessions made at random the engine is compared over. */
const COMPARED = 100;

const say = (text) => console.error(`release: ${text}`);
const at = (...names) => path.join(TOP, ...names);

/* Runs a step of the build, its messages on standard error. */
function step(command, ...words) {
  const { status, error } = spawnSync(command, words, { cwd: TOP, stdio: ["ignore", 2, 2] });
  if (status !== 0) throw new NoRelease(`${path.relative(TOP, command)}: ${error?.message ?? `it ended with status ${status}`}`);
}

/* Hands a folder on, which is gone in the end. It lies in the repository, so that what is made in it can be moved to dist/. */
function inRoom(use) {
  fs.mkdirSync(at("out"), { recursive: true });
  const room = fs.mkdtempSync(at("out/release-"));
  try {
    return use(room);
  } finally {
    fs.rmSync(room, { recursive: true, force: true });
  }
}

/* An engine's file: one that is built already, or one that is built of the proved program. */
function engineFile(given, room) {
  const file = given ?? path.join(room, "otbench.wasm");
  if (given === undefined) step(at("engine/build"), file);
  return file;
}

/* The engine beside the native program, over all subcommands; and the command, over the examples. */
function compare(engine, command) {
  step(process.execPath, at("engine/compare.mjs"), "--engine", engine, "--native", PROGRAM, "--sessions", String(COMPARED));
  const examples = fs.readdirSync(at("examples")).filter((name) => name.endsWith(".ots"));
  const words = ["run", "steps", "explain", "check", "asm"];
  for (const word of words)
    for (const name of examples) {
      const stdio = { input: fs.readFileSync(at("examples", name)), maxBuffer: 1 << 28 };
      const [native, ours] = [spawnSync(PROGRAM, [word], stdio), spawnSync(process.execPath, [command, word], stdio)];
      const isSame = native.status === ours.status && native.stdout.equals(ours.stdout) && native.stderr.equals(ours.stderr);
      if (!isSame) throw new NoRelease(`the command answers otherwise than the proved program: ${word} < examples/${name}`);
    }
  say(`the command answers as the proved program in ${words.length * examples.length} runs of the examples`);
}

/* Puts a folder in the place of dist/. Where it cannot be moved, dist/ is as it was. */
function replaceDist(folder) {
  const old = `${folder}-before`;
  if (fs.existsSync(DIST)) fs.renameSync(DIST, old);
  try {
    fs.renameSync(folder, DIST);
  } catch (error) {
    if (fs.existsSync(old)) fs.renameSync(old, DIST);
    throw error;
  }
}

function checkVersion(version, engine) {
  const { errors } = serve(new WebAssembly.Module(engine), ["--version"], new Uint8Array(0));
  const program = Buffer.from(errors).toString().trim();
  if (program !== `otbench ${version}`) throw new NoRelease(`the program says that it is ${program}`);
}

function make(version, given) {
  if (version !== packageVersion()) throw new NoRelease(`npm/package.json says version ${packageVersion()}`);
  const shown = { version, commit: commit(), proved: given === undefined };
  if (shown.proved && !isProved()) throw new NoRelease("the proved program of these sources is not built: ./otbench --proved builds it");
  inRoom((room) => {
    const file = engineFile(given, room);
    const engine = fs.readFileSync(file);
    checkVersion(version, engine);
    const dist = path.join(room, "dist");
    const command = path.join(dist, "otbench.mjs");
    fs.mkdirSync(dist);
    fs.writeFileSync(command, bundle(engine, shown), { mode: 0o755 });
    if (shown.proved) compare(file, command);
    step(at("viewer/build-page.mjs"), file, path.join(dist, "otbench.html"));
    seal(dist, { ...shown, sources: sources(), engine: checksum(engine) });
    replaceDist(dist);
  });
  for (const name of fs.readdirSync(DIST)) say(`dist/${name}, ${fs.statSync(path.join(DIST, name)).size} bytes`);
}

function check(given) {
  if (!fs.existsSync(DIST)) return say("there is no release in dist/");
  const { release, command, engine } = opened();
  say(`dist/ is version ${release.version} of commit ${release.commit}, ${release.proved ? "proved" : "not proved"}`);
  say("its files are as the release wrote them");
  if (release.sources !== sources()) return say("the sources in crates/ are others now");
  say("the sources in crates/ are the same");
  if (!isOfTheseModules(command, release)) say("the modules of the command, or the viewer's page, are others now");
  if (given === undefined && !isProved()) return say("the engine is not built anew: the proved program of these sources is not there");
  const anew = inRoom((room) => fs.readFileSync(engineFile(given, room)));
  if (!anew.equals(engine)) throw new NoRelease("the engine in dist/ is another one than these sources give");
  return say("the engine in dist/ is the one that these sources give, byte for byte");
}

function packed(folder = at("out")) {
  const { release, engine } = opened();
  const { version, commit: of, proved } = release;
  const archive = inRoom((room) => {
    fs.mkdirSync(folder, { recursive: true });
    stage(room, engine, { version, commit: of, proved });
    return pack(room, folder);
  });
  console.log(path.relative(process.cwd(), archive));
}

/* Which of the three is asked for, or null where the words are not understood. */
function asked() {
  const options = { engine: { type: "string" }, check: { type: "boolean" }, pack: { type: "boolean" }, help: { type: "boolean", short: "h" } };
  const { values, positionals } = parseArgs({ options, allowPositionals: true });
  const [word, ...more] = positionals;
  if (values.help) return () => process.stdout.write(USAGE);
  if (more.length > 0 || (values.check && values.pack)) return null;
  if (values.check) return word === undefined ? () => check(values.engine) : null;
  if (values.pack) return values.engine === undefined ? () => packed(word) : null;
  return /^\d+\.\d+\.\d+$/.test(word) ? () => make(word, values.engine) : null;
}

function main() {
  try {
    const action = asked();
    if (action === null) return void (process.stderr.write(USAGE), (process.exitCode = 2));
    action();
  } catch (fault) {
    const isUsage = /^ERR_PARSE_ARGS/.test(fault.code);
    if (!isUsage && !(fault instanceof NoRelease) && fault.code === undefined) throw fault;
    say(fault.message);
    process.exitCode = isUsage ? 2 : 1;
  }
}

main();
