/* The program that the environment names, or the repository's. */

import { execFileSync } from "node:child_process";
import { fileURLToPath } from "node:url";
import { benchOver } from "../npm/bench.mjs";
import { nativeProgram } from "../command/programs.mjs";

/* Its path. */
export const programPath = () =>
  process.env.OTBENCH ?? execFileSync(fileURLToPath(new URL("../otbench", import.meta.url)), ["--which"], { encoding: "utf8", stdio: ["ignore", "pipe", "inherit"] }).trimEnd();

/* Its functions. */
export const listing = (path = programPath()) => benchOver(nativeProgram(path, path).ask);
