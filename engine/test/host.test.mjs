// The host: what it hands the engine, what it gives back, and what it throws.
import assert from "node:assert/strict";
import fs from "node:fs";
import os from "node:os";
import path from "node:path";
import { test } from "node:test";
import { WASI } from "node:wasi";

import { EngineFault, serve, serveStreams } from "../host.mjs";
import { ENGINE, example } from "./engine.mjs";
import { ALWAYS, moduleOf } from "./module.mjs";

const engine = new WebAssembly.Module(fs.readFileSync(ENGINE));
const bytes = (text) => new TextEncoder().encode(text);
const text = (bytes) => new TextDecoder().decode(bytes);

test("output, standard error and status", () => {
    const { status, output, errors } = serve(engine, ["run"], bytes('clients 1\nedit 0 ["é"]\ntake 0\nack 0\n'));
    assert.equal(status, 0);
    assert.equal(text(output), 'client 0 rev 1 synchronized "é"\nserver rev 1 "é"\nquiet\n');
    assert.equal(text(errors), "");
});

test("a refused input is the program's own fault", () => {
    const { status, output, errors } = serve(engine, ["run"], bytes("clients 1\njump\n"));
    assert.deepEqual([status, text(output)], [1, ""]);
    assert.match(text(errors), /^otbench: line 2\b/);
});

test("words with every kind of character, and none", () => {
    assert.equal(serve(engine, [], new Uint8Array()).status, 2);
    assert.match(text(serve(engine, ["é😀"], new Uint8Array()).errors), /'é😀'/);
    const session = serve(engine, ["generate", "--instructions", "0", "--start", 'q"é😀'], new Uint8Array());
    assert.match(text(session.output), /^start "q\\"é😀"$/m);
});

test("each call begins anew, and the input is left as it was", () => {
    const input = bytes(`${example("weak-order.ots")}`);
    const before = input.slice();
    const first = serve(engine, ["steps"], input);
    assert.deepEqual(serve(engine, ["steps"], input), first);
    assert.deepEqual(input, before);
});

test("a long output comes in pieces, and is whole", () => {
    const input = serve(engine, ["generate", "--instructions", "5000"], new Uint8Array()).output;
    const { output } = serve(engine, ["steps"], input);
    const pieces = [];
    let at = 0;
    const read = (room) => {
        const part = input.subarray(at, at + room.length);
        room.set(part);
        at += part.length;
        return part.length;
    };
    serveStreams(engine, ["steps"], { read, write: (part) => void pieces.push(part.slice()), error: assert.fail });
    assert.ok(pieces.length > 1);
    assert.deepEqual(Buffer.concat(pieces), Buffer.from(output));
});

test("input in single bytes", () => {
    const input = example("weak-order.ots");
    let at = 0;
    const pieces = [];
    const read = (room) => {
        if (at === input.length) return 0;
        room[0] = input[at++];
        return 1;
    };
    const status = serveStreams(engine, ["run"], { read, write: (part) => void pieces.push(part.slice()), error: assert.fail });
    assert.equal(status, 0);
    assert.deepEqual(Buffer.concat(pieces), Buffer.from(serve(engine, ["run"], input).output));
});

const coded = (code) => Object.assign(new Error(code), { code });

test("a fault of a stream with a code is the program's to tell", () => {
    for (const code of ["EPIPE", "ENOSPC", "EIO", "ESOMETHING"]) {
        const write = () => {
            throw coded(code);
        };
        assert.equal(serveStreams(engine, ["generate"], { read: () => 0, write, error: assert.fail }), 1);
    }
    const said = [];
    const read = () => {
        throw coded("EISDIR");
    };
    assert.equal(serveStreams(engine, ["run"], { read, write: assert.fail, error: (part) => void said.push(part.slice()) }), 1);
    assert.match(`${Buffer.concat(said)}`, /^otbench: /);
});

test("any other fault of a stream comes out as it is", () => {
    const fault = new TypeError("mine");
    const write = () => {
        throw fault;
    };
    assert.throws(() => serveStreams(engine, ["generate"], { read: () => 0, write, error: assert.fail }), fault);
});

test("any WASI host runs it: node's own", async () => {
    const stdin = fs.openSync(new URL("../../examples/two-clients.ots", import.meta.url));
    const folder = fs.mkdtempSync(path.join(os.tmpdir(), "otbench-wasi-"));
    const stdout = fs.openSync(`${folder}/out`, "w");
    const wasi = new WASI({ version: "preview1", args: ["otbench", "run"], env: {}, stdin, stdout, returnOnExit: true });
    const instance = await WebAssembly.instantiate(engine, wasi.getImportObject());
    assert.equal(wasi.start(instance), 0);
    assert.deepEqual(fs.readFileSync(`${folder}/out`), Buffer.from(serve(engine, ["run"], example("two-clients.ots")).output));
    fs.rmSync(folder, { recursive: true });
});

test("five imports, and no others", () => {
    const names = WebAssembly.Module.imports(engine).map(({ module, name }) => `${module}.${name}`);
    assert.deepEqual(names.sort(), ["args_get", "args_sizes_get", "fd_read", "fd_write", "proc_exit"].map((name) => `wasi_snapshot_preview1.${name}`));
});

const NOTHING = { read: () => 0, write() {}, error() {} };
const CALLS_ITSELF = [0x10, 0];

test("a trap is told as a fault of the engine", () => {
    assert.throws(() => serveStreams(moduleOf(ALWAYS), [], NOTHING), { name: "EngineFault", message: /fault of the engine: unreachable/ });
});

test("a stack that ran out is told", () => {
    for (const module of [moduleOf(ALWAYS, { bottom: -1 }), moduleOf(CALLS_ITSELF)])
        assert.throws(() => serveStreams(module, [], NOTHING), (fault) => fault instanceof EngineFault && fault.message === "the engine's stack ran out");
});
