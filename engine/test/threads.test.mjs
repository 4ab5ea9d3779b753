// No thread can be had: one worker needs none, and more end with the fault of a thread that cannot be started.
import assert from "node:assert/strict";
import fs from "node:fs";
import { test } from "node:test";

import { serve } from "../host.mjs";
import { ENGINE, example } from "./engine.mjs";

const engine = new WebAssembly.Module(fs.readFileSync(ENGINE));
const plan = (workers) => Buffer.from(JSON.stringify({ ...JSON.parse(`${example("two-typists.json")}`), workers }));
const text = (bytes) => new TextDecoder().decode(bytes);

test("one worker carries a plan out", () => {
    const { status, output, errors } = serve(engine, ["threads"], plan(1));
    assert.deepEqual([status, text(errors)], [0, ""]);
    assert.match(text(output), /^; server rev 2 "Hello, world"$/m);
});

test("more workers end with a fault and status 1", () => {
    for (const workers of [2, 8]) {
        const { status, output, errors } = serve(engine, ["threads"], plan(workers));
        assert.deepEqual([status, text(output), text(errors)], [1, "", "otbench: Memory\n"]);
    }
});

test("a plan that is refused is refused before", () => {
    assert.equal(text(serve(engine, ["threads"], plan(9)).errors), "otbench: BadNumber\n");
});
