/* Writes the engine that a command of one file holds: unpack.mjs COMMAND.mjs TO.wasm */

import fs from "node:fs";
import { engineIn } from "./bundle.mjs";

const [command, to, ...more] = process.argv.slice(2);
if (to === undefined || more.length > 0) {
  console.error("usage: node npm/release/unpack.mjs COMMAND.mjs TO.wasm");
  process.exit(2);
}
fs.writeFileSync(to, engineIn(fs.readFileSync(command, "utf8")));
