/* Makes one file of the command, with the engine and the viewer's page in it. */

import zlib from "node:zlib";
import { storedSessions } from "../../ports/stored.mjs";
import { oneScript } from "./modules.mjs";
import { viewerPage } from "./stage.mjs";

const ENTRY = "command/cli.mjs";
const PARTS = "command/parts.mjs"; // what it gives stands in the file itself
const STORED = "ports/stored.mjs"; // the same

/* Packed as brotli, which node unpacks by itself. */
function packed(bytes) {
  const { BROTLI_PARAM_QUALITY, BROTLI_MAX_QUALITY, BROTLI_PARAM_LGWIN, BROTLI_MAX_WINDOW_BITS } = zlib.constants;
  const params = { [BROTLI_PARAM_QUALITY]: BROTLI_MAX_QUALITY, [BROTLI_PARAM_LGWIN]: BROTLI_MAX_WINDOW_BITS };
  return zlib.brotliCompressSync(bytes, { params });
}

const partsOf = ({ engine, viewer, release }) => `import zlib from "node:zlib";
const unpacked = (text) => zlib.brotliDecompressSync(Buffer.from(text, "base64"));
export const engineBytes = () => unpacked("${engine.toString("base64")}");
export const engineIfThere = engineBytes;
export const viewer = () => unpacked("${viewer.toString("base64")}").toString();
export const release = () => (${JSON.stringify({ version: release.version, commit: release.commit, proved: release.proved })});
`;

const storedOf = ({ sessions }) => `import zlib from "node:zlib";
const unpacked = (text) => zlib.brotliDecompressSync(Buffer.from(text, "base64"));
export const storedSessions = () => JSON.parse(unpacked("${sessions.toString("base64")}").toString());
`;

const sessions = () => Buffer.from(JSON.stringify(storedSessions()));

/* The command's text with parts that are packed, or as they are. */
function commandOf(parts) {
  const { version, commit } = parts.release;
  return `#!/usr/bin/env node
// otbench ${version}${commit === null ? "" : ` of commit ${commit}`}: the command in one file, for node of version 20 or later. ./release makes it.
import { createRequire } from "node:module";
const require = createRequire(import.meta.url);
${oneScript(ENTRY, { [PARTS]: () => partsOf(parts), [STORED]: () => storedOf(parts) })}`;
}

/**
 * The command in one file.
 * @param {Buffer} engine
 * @param {{ version: string, commit: string | null, proved: boolean }} release what more it has is not shown
 */
export const bundle = (engine, release) => commandOf({ engine: packed(engine), viewer: packed(Buffer.from(viewerPage())), sessions: packed(sessions()), release });

const UNPACKED = /unpacked\("([^"]+)"\)/g;
const unpacked = (text) => zlib.brotliDecompressSync(Buffer.from(text, "base64"));

/** The engine in a command of one file. */
export const engineIn = (command) => unpacked(/engineBytes = \(\) => unpacked\("([^"]+)"\)/.exec(command)[1]);

/** Whether a command of one file is what the modules and the viewer's page make now. Versions of node pack otherwise, so it is unpacked. */
export function isOfTheseModules(command, release) {
  const plain = command.replace(UNPACKED, (_, text) => `unpacked("${unpacked(text).toString("base64")}")`);
  return plain === commandOf({ engine: engineIn(command), viewer: Buffer.from(viewerPage()), sessions: sessions(), release });
}
