// An instance of the engine serves many calls: each of them as a fresh one would.
import assert from "node:assert/strict";
import fs from "node:fs";
import { test } from "node:test";

import { serve, serveStreams } from "../host.mjs";
import { ENGINE, example } from "./engine.mjs";
import { limited, numberAt } from "./limit.mjs";
import { ALWAYS, DROP, growBy, IF, LESS, LOAD, MINUS, moduleOf, number, POINTER, SET_POINTER, STORE } from "./module.mjs";

const file = fs.readFileSync(ENGINE);
const bytes = (text) => new TextEncoder().encode(text);
const NOTHING = new Uint8Array(0);

/** The instances that are made while `act` runs. */
function instancesOf(t, act) {
    const made = [];
    const Plain = WebAssembly.Instance;
    const noting = function (...given) {
        made.push(new Plain(...given));
        return made.at(-1);
    };
    t.mock.method(WebAssembly, "Instance", noting);
    act(made);
    t.mock.restoreAll();
    return made;
}

/** What a fresh instance answers. */
function fresh(module, words, input) {
    let at = 0;
    const [output, errors] = [[], []];
    const read = (room) => {
        const part = input.subarray(at, at + room.length);
        room.set(part);
        at += part.length;
        return part.length;
    };
    const status = serveStreams(module, words, { read, write: (part) => void output.push(part.slice()), error: (part) => void errors.push(part.slice()) });
    return { status, output: new Uint8Array(Buffer.concat(output)), errors: new Uint8Array(Buffer.concat(errors)) };
}

const session = serve(new WebAssembly.Module(file), ["generate", "--instructions", "1000", "--clients", "6"], NOTHING).output;
const behind = (...parts) => new Uint8Array(Buffer.concat(parts.flatMap((part) => [Buffer.from("\n%%\n"), part]).slice(1)));
const small = bytes('clients 1\nedit 0 ["é"]\ntake 0\nack 0\n');

/** Calls of every kind: short and long ones, refused words and inputs, deep JSON, much memory. */
const CALLS = [
    [["--version"], NOTHING],
    [["run"], small],
    [["run"], session],
    [["run"], bytes("clients 1\njump\n")],
    [["run", "x".repeat(100_000)], NOTHING],
    [["é", "--😀"], NOTHING],
    [[], NOTHING],
    [["steps", "--documents"], session],
    [["steps"], small],
    [["explain"], example("weak-order.ots")],
    [["asm"], session],
    [["dis"], example("late-join.img")],
    [["dis"], bytes("no image")],
    [["debug"], behind(session, bytes("run\nback 5\nshow\n"))],
    [["conform"], behind(small, bytes('{"at":1,"x":' + "[".repeat(120) + "]".repeat(120) + "}\n"))],
    [["judge"], bytes("[".repeat(100_000))],
    [["judge"], bytes(`[${"1,".repeat(200_000)}1]`)],
    [["threads"], example("two-typists.json")],
    [["generate", "--instructions", "4000", "--clients", "64"], NOTHING],
];

/** A fixed order in which each call follows each. */
const pairs = CALLS.flatMap((one) => CALLS.flatMap((other) => [one, other]));

/** Whether the memory is a fresh instance's, with zeros behind it. */
function assertFresh({ exports: { memory } }, untouched) {
    const now = Buffer.from(memory.buffer);
    assert.equal(Buffer.compare(now.subarray(0, untouched.length), untouched), 0);
    const more = now.subarray(untouched.length);
    assert.equal(Buffer.compare(more, Buffer.alloc(more.length)), 0);
}

test("the state of an engine is its memory and its stack pointer", () => {
    const module = new WebAssembly.Module(file);
    assert.ok(WebAssembly.Module.imports(module).every(({ kind }) => kind === "function"));
    const [MEMORIES, GLOBALS, DATA] = [5, 6, 11];
    const seen = new Map();
    for (let at = 8; at < file.length; ) {
        const [size, from] = numberAt(file, at + 1);
        seen.set(file[at], numberAt(file, from));
        at = from + size;
    }
    const [[memories], [globals, firstGlobal], [pieces, firstPiece]] = [MEMORIES, GLOBALS, DATA].map((id) => seen.get(id));
    assert.equal(memories, 1);
    assert.deepEqual([globals, ...file.subarray(firstGlobal, firstGlobal + 2)], [1, 0x7f, 1]);
    // Each piece of data is put into the memory when the instance is made: none is there to be used later.
    assert.ok(pieces > 0 && file[firstPiece] === 0);
});

/** A fresh instance's memory, of which nothing ran. */
function untouchedOf(module) {
    const imports = Object.fromEntries(WebAssembly.Module.imports(module).map(({ name }) => [name, () => 0]));
    return Buffer.from(new WebAssembly.Instance(module, { wasi_snapshot_preview1: imports }).exports.memory.buffer);
}

test("each call of every kind behind each: the answer of a fresh instance, and its memory", (t) => {
    const module = new WebAssembly.Module(file);
    const wanted = new Map(CALLS.map((call) => [call, fresh(module, ...call)]));
    const untouched = untouchedOf(module);
    instancesOf(t, (made) => {
        for (const call of pairs) {
            assert.deepEqual(serve(module, ...call), wanted.get(call));
            const last = made.at(-1);
            if (last.exports.memory.buffer.byteLength <= untouched.length + (1 << 20)) assertFresh(last, untouched);
        }
        assert.ok(made.length < pairs.length / 2);
    });
});

test("memory that was refused is refused again, and a call behind it is as on a fresh instance", () => {
    for (const more of [0, 2, 4, 8, 16, 40]) {
        const module = new WebAssembly.Module(limited(file, more));
        for (const call of [CALLS[1], CALLS[2], CALLS[1], CALLS[7], CALLS[4], CALLS[1], CALLS[16], CALLS[3], CALLS[2]])
            assert.deepEqual(serve(module, ...call), fresh(module, ...call), `${more} pages`);
    }
});

test("one instance serves small calls, and its memory stays", (t) => {
    const module = new WebAssembly.Module(file);
    const sizes = new Set();
    const made = instancesOf(t, (instances) => {
        for (let turn = 0; turn < 50; turn++) {
            serve(module, ["steps"], small);
            sizes.add(instances[0].exports.memory.buffer.byteLength);
        }
    });
    assert.deepEqual([made.length, sizes.size], [1, 1]);
});

test("the process does not grow over 100,000 calls", () => {
    const module = new WebAssembly.Module(file);
    const calls = (count) => {
        for (; count > 0; count--) serve(module, ["asm"], small);
        return process.memoryUsage().rss;
    };
    const before = calls(5_000);
    const behind = calls(100_000);
    assert.ok(behind - before < 64 << 20, `${before} bytes, then ${behind}`);
});

/** Code that stops where it finds what an earlier call has left at that address. */
const findsNothingAt = (address) => [...number(address), ...LOAD, ...IF, ...number(address), ...number(1), ...STORE];
const [PAGE, BOTTOM] = [65536, 16384];

test("what a call leaves in the stack, in static data, in the heap and in the stack pointer is gone", (t) => {
    const codes = [
        findsNothingAt(8),
        findsNothingAt(BOTTOM + 8),
        [...growBy(1), ...findsNothingAt(PAGE + 8)],
        [...POINTER, ...number(BOTTOM), ...LESS, ...IF, ...POINTER, ...number(16), ...MINUS, ...SET_POINTER],
    ];
    for (const code of codes) {
        const module = moduleOf(code, { bottom: BOTTOM });
        const made = instancesOf(t, () => {
            for (let turn = 0; turn < 3; turn++) assert.equal(serve(module, [], NOTHING).status, 0);
        });
        assert.equal(made.length, 1);
    }
});

test("an instance with a large heap is not kept", (t) => {
    const module = moduleOf([...growBy(40), ...findsNothingAt(PAGE + 8)]);
    const made = instancesOf(t, () => {
        for (let turn = 0; turn < 3; turn++) assert.equal(serve(module, [], NOTHING).status, 0);
    });
    assert.equal(made.length, 3);
});

test("a call that needs more than the stack of an instance that is kept has the whole stack", (t) => {
    const module = moduleOf([...POINTER, ...number(300_000), ...MINUS, ...LOAD, ...DROP], { bottom: 400_000, pages: 7 });
    const made = instancesOf(t, () => assert.equal(serve(module, [], NOTHING).status, 0));
    assert.equal(made.length, 2);
});

test("a call behind one that stopped has an instance of its own", (t) => {
    const module = moduleOf(ALWAYS);
    const made = instancesOf(t, () => {
        for (let turn = 0; turn < 2; turn++) assert.throws(() => serve(module, [], NOTHING), { name: "EngineFault", message: /unreachable/ });
    });
    assert.equal(made.length, 4);
});

test("a call behind one that threw has an instance of its own", (t) => {
    const module = new WebAssembly.Module(file);
    const wanted = fresh(module, ["steps"], small);
    const broken = {
        subarray() {
            throw new TypeError("mine");
        },
    };
    const made = instancesOf(t, () => {
        assert.deepEqual(serve(module, ["steps"], small), wanted);
        assert.throws(() => serve(module, ["steps"], broken), { name: "TypeError", message: "mine" });
        assert.deepEqual(serve(module, ["steps"], small), wanted);
    });
    assert.equal(made.length, 2);
});
