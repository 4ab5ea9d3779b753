/* The engine under node: compiled when it is first asked for, and kept. */

import { readFileSync } from "node:fs";
import { fileURLToPath } from "node:url";

const ENGINE = new URL("../engine/out/otbench.wasm", import.meta.url);

/** @param {URL} file @returns {Buffer} a WASI command */
export function engineBytes(file = ENGINE) {
  try {
    return readFileSync(file);
  } catch (error) {
    if (error.code !== "ENOENT") throw error;
    throw new Error(`the engine is missing, ${fileURLToPath(file)}: a checkout is no package; ./release --pack makes one of it`, { cause: error });
  }
}

let kept = null;

/** @returns {WebAssembly.Module} */
export function engine() {
  return (kept ??= new WebAssembly.Module(engineBytes()));
}
