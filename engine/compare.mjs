#!/usr/bin/env node
/**
 * The engine beside a native program, byte for byte: output, standard error and status.
 *
 *     node engine/compare.mjs [--engine FILE] [--native FILE] [--sessions N] [--from SEED] [--seconds S] [--processes N] [--keep FOLDER]
 *
 * The inputs: all that examples/ and conformance/sessions/ have, N sessions made at random (2,000, from seed 1 on) under every subcommand, whole and
 * harmed, with traces and plans, and corners: words, bytes, JSON that nests deep. After S seconds no further session is begun. Prints how many runs were
 * compared, by subcommand, and each difference; `--keep` writes its input to a folder. Status 1 if there is one.
 *
 * One difference is wanted: a plan for more than one worker ends with `otbench: Memory` and status 1, since no thread can be had.
 */
import { spawnSync } from "node:child_process";
import fs from "node:fs";
import path from "node:path";
import { fileURLToPath } from "node:url";
import { parseArgs } from "node:util";
import { Worker, isMainThread, parentPort, workerData } from "node:worker_threads";

import { corners, folder, generated } from "./compare/cases.mjs";
import { serve } from "./host.mjs";

const TOP = path.dirname(path.dirname(fileURLToPath(import.meta.url)));
const MOST_OUTPUT = 2 ** 30;
const SUBCOMMANDS = ["run", "check", "debug", "asm", "dis", "judge", "steps", "explain", "conform", "threads", "generate", "complete", "help"];

/** @typedef {{status: number | string, output: Buffer, errors: Buffer}} Ran */

/** @returns {Ran} */
function native(program, words, input) {
    const ran = spawnSync(program, words, { input, maxBuffer: MOST_OUTPUT, argv0: "otbench" });
    // A program need not read its input to the end.
    if (ran.error && ran.error.code !== "EPIPE") throw ran.error;
    return { status: ran.status ?? ran.signal, output: ran.stdout, errors: ran.stderr };
}

/** @returns {Ran} */
function engine(module, words, input) {
    try {
        const { status, output, errors } = serve(module, words, input);
        return { status, output: Buffer.from(output), errors: Buffer.from(errors) };
    } catch (fault) {
        return { status: `${fault.name}: ${fault.message}`, output: Buffer.alloc(0), errors: Buffer.alloc(0) };
    }
}

/** Whether a plan that was understood asks for more than one worker, and the engine says that there is no thread. */
function hasNoThread(words, input, a, b) {
    return words[0] === "threads" && a.status === 0 && b.status === 1 && `${b.errors}` === "otbench: Memory\n" && JSON.parse(`${input}`).workers > 1;
}

/** What differs, or null. */
function difference(a, b) {
    if (a.status !== b.status) return `status ${a.status} and ${b.status} ${`${b.errors}`.slice(0, 200)}`;
    for (const stream of ["output", "errors"]) {
        if (Buffer.compare(a[stream], b[stream]) === 0) continue;
        const at = a[stream].findIndex((byte, i) => byte !== b[stream][i]);
        return `${stream} of ${a[stream].length} and ${b[stream].length} bytes, from byte ${at < 0 ? a[stream].length : at}`;
    }
    return null;
}

/** Does a share of all, in a worker. */
function work({ options, index, count }) {
    const module = new WebAssembly.Module(fs.readFileSync(options.engine));
    const until = Date.now() + 1000 * options.seconds;
    const runs = {};
    const ask = (name, words, given = "") => {
        const input = Buffer.from(given);
        const a = native(options.native, words, input);
        const b = engine(module, words, input);
        const word = SUBCOMMANDS.includes(words[0]) ? words[0] : "other words";
        runs[word] = (runs[word] ?? 0) + 1;
        const what = hasNoThread(words, input, a, b) ? null : difference(a, b);
        if (what !== null) parentPort.postMessage({ name, words, what, input });
        return a.output;
    };
    const parts = [() => corners(ask), () => folder(ask, path.join(TOP, "examples")), () => folder(ask, path.join(TOP, "conformance/sessions"))];
    for (let seed = options.from; seed < options.from + options.sessions; seed++) parts.push(() => generated(ask, seed));
    let i = index;
    for (; i < parts.length && Date.now() < until; i += count) parts[i]();
    parentPort.postMessage({ runs, left: Math.max(0, Math.ceil((parts.length - i) / count)) });
}

function given() {
    const { values } = parseArgs({
        options: {
            engine: { type: "string", default: path.join(TOP, "engine/out/otbench.wasm") },
            native: { type: "string", default: path.join(TOP, "crates/otbench/out/otbench") },
            sessions: { type: "string", default: "2000" },
            from: { type: "string", default: "1" },
            seconds: { type: "string", default: "Infinity" },
            processes: { type: "string", default: "2" },
            keep: { type: "string" },
        },
    });
    return { ...values, sessions: Number(values.sessions), from: Number(values.from), seconds: Number(values.seconds), processes: Number(values.processes) };
}

async function main() {
    const options = given();
    const all = {};
    let differences = 0;
    let notBegun = 0;
    const tell = ({ runs, left, name, words, what, input }) => {
        if (runs) {
            for (const [word, count] of Object.entries(runs)) all[word] = (all[word] ?? 0) + count;
            notBegun += left;
            return;
        }
        differences++;
        console.log(`${name}: otbench ${words.join(" ")}: ${what}`);
        if (options.keep) fs.writeFileSync(path.join(options.keep, `${differences}.input`), input);
    };
    const workers = Array.from({ length: options.processes }, (_, index) => {
        const worker = new Worker(fileURLToPath(import.meta.url), { workerData: { options, index, count: options.processes } });
        worker.on("message", tell);
        return new Promise((done, failed) => worker.on("exit", done).on("error", failed));
    });
    await Promise.all(workers);
    const count = Object.values(all).reduce((sum, it) => sum + it, 0);
    for (const [word, runs] of Object.entries(all).sort()) console.log(`${word}: ${runs}`);
    console.log(`${count} runs compared, ${differences} differ${notBegun > 0 ? `; ${notBegun} sessions were not begun` : ""}`);
    process.exitCode = differences > 0 || count === 0 ? 1 : 0;
}

if (isMainThread) await main();
else work(workerData);
