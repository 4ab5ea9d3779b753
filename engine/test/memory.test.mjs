// Memory that is refused is a fault that the program tells: never a trap, whatever the limit.
import assert from "node:assert/strict";
import fs from "node:fs";
import { test } from "node:test";

import { serve } from "../host.mjs";
import { ENGINE, example } from "./engine.mjs";
import { limited } from "./limit.mjs";

const file = fs.readFileSync(ENGINE);
const whole = new WebAssembly.Module(file);
const text = (bytes) => new TextDecoder().decode(bytes);

const LIMITS = [0, 1, 2, 3, 4, 6, 8, 12, 16, 24, 32, 48, 64, 96, 128];
const session = serve(whole, ["generate", "--instructions", "6000", "--clients", "6"], new Uint8Array()).output;
const behind = (...parts) => Buffer.concat(parts.flatMap((part) => [Buffer.from("\n%%\n"), part]).slice(1));
const lines = serve(whole, ["steps"], session).output;
const image = serve(whole, ["asm"], session).output;
const plan = JSON.stringify({ clients: 3, workers: 1, start: "a".repeat(9000), typing: Array(3).fill(Array(400).fill({ at: 5, insert: "xyz" })) });
const trace = JSON.stringify({ replicas: 1, start: Array.from({ length: 900 }, (_, i) => [65535, i]), events: Array(900).fill({ replica: 0, kind: "read", seen: [0], list: [] }) });

const RUNS = [
    [["run"], session],
    [["run", "--image"], image],
    [["check"], session],
    [["steps"], session],
    [["steps", "--documents"], session],
    [["explain"], session],
    [["asm"], session],
    [["dis"], image],
    [["debug"], behind(session, Buffer.from("run\nback 5\nshow\n"))],
    [["conform"], behind(session, lines)],
    [["judge"], Buffer.from(trace)],
    [["threads"], Buffer.from(plan)],
    [["generate", "--instructions", "20000"], new Uint8Array()],
];

for (const [words, input] of RUNS)
    test(`otbench ${words.join(" ")}`, () => {
        const wanted = serve(whole, words, input);
        let refused = 0;
        for (const more of LIMITS) {
            const ran = serve(new WebAssembly.Module(limited(file, more)), words, input);
            const same = ran.status === wanted.status && Buffer.compare(ran.output, wanted.output) === 0 && Buffer.compare(ran.errors, wanted.errors) === 0;
            if (same) continue;
            refused++;
            assert.equal(ran.status, 1, `${more} pages`);
            // The fault stands on standard error, or in what is printed of where the run stopped.
            assert.match(`${text(ran.errors)}${text(ran.output)}`, /Memory|no memory/, `${more} pages`);
        }
        assert.ok(refused > 0, "no limit was too low");
    });

test("the words alone find no memory", () => {
    const { status, errors } = serve(new WebAssembly.Module(limited(file, 0)), ["run", "x".repeat(200_000)], example("two-clients.ots"));
    assert.deepEqual([status, text(errors)], [1, "otbench: Memory\n"]);
});
