#!/usr/bin/env node
/**
 * The engine from a shell, as measure.py runs it: standard input to standard output.
 *
 *     node engine/run.mjs ENGINE [WORD..]
 *     node engine/run.mjs --times N ENGINE [WORD..]     N times in one process; the last line of standard error is the processor time of each, in seconds
 */
import fs from "node:fs";

import { serve, serveStreams } from "./host.mjs";

/** Writes all bytes, also to a pipe that takes a part of them. */
function writeAll(to, bytes) {
    for (let at = 0; at < bytes.length; ) at += fs.writeSync(to, bytes, at);
}

const streams = { read: (room) => fs.readSync(0, room), write: (bytes) => writeAll(1, bytes), error: (bytes) => writeAll(2, bytes) };

function times(count, module, words) {
    const input = fs.readFileSync(0);
    const all = [];
    let ran;
    for (let left = count; left > 0; left--) {
        const before = process.cpuUsage();
        ran = serve(module, words, input);
        const { user, system } = process.cpuUsage(before);
        all.push((user + system) / 1e6);
    }
    writeAll(1, ran.output);
    writeAll(2, Buffer.concat([ran.errors, Buffer.from(`${all.join(" ")}\n`)]));
    return ran.status;
}

let words = process.argv.slice(2);
if (words.length === 0 || (words[0].startsWith("-") && !(words[0] === "--times" && words.length > 2 && Number(words[1]) > 0))) {
    console.error("usage: node engine/run.mjs [--times N] ENGINE [WORD..]");
    process.exit(2);
}
const count = words[0] === "--times" ? Number(words[1]) : 0;
if (count > 0) words = words.slice(2);
const module = new WebAssembly.Module(fs.readFileSync(words[0]));
process.exitCode = count > 0 ? times(count, module, words.slice(1)) : serveStreams(module, words.slice(1), streams);
