/* The program, for tests in the browser: OTBENCH, else that which the wrapper of the repository runs; and pages. */

import { spawnSync } from "node:child_process";
import fs from "node:fs";
import os from "node:os";
import path from "node:path";
import { fileURLToPath } from "node:url";
import { page } from "../html.mjs";

const wrapper = fileURLToPath(new URL("../../otbench", import.meta.url));
const command = fileURLToPath(new URL("../../command/cli.mjs", import.meta.url));
const program = process.env.OTBENCH || spawnSync(wrapper, ["--which"], { encoding: "utf8", stdio: ["ignore", "pipe", "inherit"] }).stdout.trimEnd();

/* What the command prints over the program for words and an input; where it cannot be run or prints a fault, that is thrown. */
export function otbench(words, input) {
  const env = { ...process.env, OTBENCH: program };
  const { stdout, stderr, error } = spawnSync(process.execPath, [command, ...words], { input, env, encoding: "utf8", maxBuffer: 1 << 30 });
  if (error) throw error;
  if (stderr && !stdout) throw new Error(stderr);
  return stdout;
}

const folder = fs.mkdtempSync(path.join(os.tmpdir(), "otbench-pages-"));
process.on("exit", () => fs.rmSync(folder, { recursive: true, force: true }));

/* The address of a page. */
function addressOf(name, html) {
  const file = path.join(folder, `${name}.html`);
  fs.writeFileSync(file, html);
  return `file://${file}`;
}

/* That of a page with a session in it. */
export const pageOf = (name, input, options = []) => addressOf(name, otbench(["view", ...options], input));

/* That of the page without the engine. */
export const pageWithoutEngine = () => addressOf("no-engine", page());

/* The page with the engine: OTBENCH_PAGE, else the one that was built. */
const enginePage = process.env.OTBENCH_PAGE || fileURLToPath(new URL("../../dist/otbench.html", import.meta.url));
export const skip = fs.existsSync(enginePage) ? false : "dist/otbench.html is not built";

/* Its address, or that of a copy with something else in it. */
export function addressOfPage(change = null) {
  if (!change) return `file://${path.resolve(enginePage)}`;
  const file = path.join(folder, "changed.html");
  fs.writeFileSync(file, change(fs.readFileSync(enginePage, "utf8")));
  return `file://${file}`;
}
