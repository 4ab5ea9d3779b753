/** What the tests are of: engine/out/otbench.wasm, or what ENGINE names; the examples. */
import fs from "node:fs";
import { fileURLToPath } from "node:url";

export const ENGINE = process.env.ENGINE ?? fileURLToPath(new URL("../out/otbench.wasm", import.meta.url));

/** @param {string} name @returns {Buffer} */
export function example(name) {
    return fs.readFileSync(new URL(`../../examples/${name}`, import.meta.url));
}
