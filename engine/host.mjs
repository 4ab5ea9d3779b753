/**
 * Runs the engine: the program `otbench` as a WASI command, whose five imports stand here. The same file serves node, a page and a worker.
 *
 *     words, input ──▶ an instance ──▶ status, output, errors
 *                        ▲     │
 *                        └─────┘ its memory put back to what it was at first
 *
 * Each call finds the memory of a fresh instance. To make one takes longer than most calls, so `serve` keeps one of each module. The state of an instance is its
 * memory and its stack pointer: nothing else of the engine changes.
 */

/**
 * The engine did not come to its end: the message says why. The program's own faults are not thrown: they are lines of `errors`, with a status.
 */
export class EngineFault extends Error {
    name = "EngineFault";
}

/** Thrown through the program to end it. */
class Exit {
    /** @param {number} status */
    constructor(status) {
        this.status = status;
    }
}

/** How WASI numbers the faults of streams, by node's codes. Any other code is a fault of input or output. */
const FAULTS = { EACCES: 2, EAGAIN: 6, EBADF: 8, EFBIG: 22, EINTR: 27, EIO: 29, EISDIR: 31, ENOSPC: 51, EPIPE: 64 };

const ENCODER = new TextEncoder();

/** What a leaf function may use below the stack pointer without moving it, in bytes. */
const RED_ZONE = 128;

/**
 * @typedef {object} Streams
 * @property {(room: Uint8Array) => number} read puts the next bytes of the input into `room`; answers how many, 0 at the end
 * @property {(bytes: Uint8Array) => void} write takes what the program writes on its output. `bytes` is good until it returns
 * @property {(bytes: Uint8Array) => void} error takes what it writes on its standard error, in the same way
 */

/**
 * What a stream's function answers, or the fault that it throws: one with a `code`, as node's file system has, is the program's to tell.
 * @param {() => void} act
 * @returns {number} 0, or WASI's number of the fault
 */
function faultOf(act) {
    try {
        act();
        return 0;
    } catch (fault) {
        if (typeof fault?.code !== "string") throw fault;
        return FAULTS[fault.code] ?? FAULTS.EIO;
    }
}

/**
 * The five functions that the engine imports.
 * @param {Instance} instance whose memory moves as it grows
 */
function imports(instance) {
    const memory = () => instance.exports.memory.buffer;
    const view = () => new DataView(memory());
    const set = (at, number) => view().setUint32(at, number, true);
    /** Calls `use` on each of the pieces of memory in the list at `at` until one is not filled; sets their bytes' count at `to`. */
    const each = (at, count, to, use) =>
        faultOf(() => {
            let done = 0;
            for (let i = 0; i < count; i++) {
                const room = new Uint8Array(memory(), view().getUint32(at + 8 * i, true), view().getUint32(at + 8 * i + 4, true));
                const used = use(room);
                done += used;
                if (used < room.length) break;
            }
            set(to, done);
        });
    return {
        args_sizes_get(count, size) {
            set(count, instance.texts.length);
            set(
                size,
                instance.texts.reduce((sum, text) => sum + text.length, 0),
            );
            return 0;
        },
        args_get(at, to) {
            for (const [i, text] of instance.texts.entries()) {
                set(at + 4 * i, to);
                new Uint8Array(memory(), to, text.length).set(text);
                to += text.length;
            }
            return 0;
        },
        fd_read: (from, at, count, to) => (from === 0 ? each(at, count, to, (room) => instance.streams.read(room)) : FAULTS.EBADF),
        fd_write(on, at, count, to) {
            if (on !== 1 && on !== 2) return FAULTS.EBADF;
            return each(at, count, to, (bytes) => {
                if (on === 1) instance.streams.write(bytes);
                else instance.streams.error(bytes);
                return bytes.length;
            });
        },
        proc_exit(status) {
            throw new Exit(status);
        },
    };
}

/**
 * Why the engine stopped, in words.
 * @param {unknown} fault what was thrown
 * @param {WebAssembly.Exports} exports
 */
function told(fault, exports) {
    // JavaScript's own stack: a RangeError in V8 and JavaScriptCore, an InternalError in SpiderMonkey.
    if (/call stack|recursion/.test(fault?.message) && /^(Range|Internal)Error$/.test(fault.name)) return "the engine's stack ran out";
    if (!(fault instanceof WebAssembly.RuntimeError)) return null;
    if (exports.__stack_pointer.value < RED_ZONE) return "the engine's stack ran out";
    return `the engine stopped, which is a fault of the engine: ${fault.message}`;
}

/** The most of the stack that a call has in an instance that is kept, in bytes, which are set to zero behind it. A call that needs more gets the whole stack. */
const STACK = 128 << 10;

/** The most of the heap that is kept with an instance, in bytes, which are set to zero too. */
const HEAP = 1 << 20;

/**
 * An instance of the engine. Its memory is
 *
 *     0 ── stack, from its end down ── bottom ── static data ── size ── heap, which grows
 */
class Instance {
    /**
     * @param {WebAssembly.Module} module
     * @throws {EngineFault} where there is no memory for it
     */
    constructor(module) {
        try {
            this.exports = new WebAssembly.Instance(module, { wasi_snapshot_preview1: imports(this) }).exports;
        } catch (fault) {
            if (fault instanceof RangeError) throw new EngineFault(`no memory for the engine: ${fault.message}`, { cause: fault });
            throw fault;
        }
    }

    /**
     * Runs the program.
     * @param {string[]} words
     * @param {Streams} streams
     * @returns {number} the status
     * @throws {EngineFault} the instance is not to be used again then
     */
    run(words, streams) {
        this.texts = ["otbench", ...words].map((word) => ENCODER.encode(`${word}\0`));
        this.streams = streams;
        try {
            this.exports._start();
            return 0;
        } catch (fault) {
            if (fault instanceof Exit) return fault.status;
            const why = told(fault, this.exports);
            if (why === null) throw fault;
            throw new EngineFault(why, { cause: fault });
        }
    }
}

/** An instance that can be put back to what it was at first. */
class Kept extends Instance {
    constructor(module) {
        super(module);
        const { memory, __stack_pointer: pointer } = this.exports;
        this.bottom = pointer.value;
        this.size = memory.buffer.byteLength;
        this.data = new Uint8Array(memory.buffer).slice(this.bottom);
        this.stack = pointer.value = Math.min(STACK, this.bottom);
    }

    /** @returns {boolean} whether it is as at first: not where its memory has grown by too much */
    restore() {
        const { memory, __stack_pointer: pointer } = this.exports;
        if (memory.buffer.byteLength > this.size + HEAP) return false;
        const bytes = new Uint8Array(memory.buffer);
        bytes.fill(0, 0, this.stack).fill(0, this.size).set(this.data, this.bottom);
        pointer.value = this.stack;
        this.texts = this.streams = null;
        return true;
    }
}

/**
 * Runs the engine once over streams, in constant memory of the host's.
 * @param {WebAssembly.Module} module
 * @param {string[]} words the words behind the program's name, as ["run"]
 * @param {Streams} streams what they throw without a `code` comes out of this call
 * @returns {number} the status
 * @throws {EngineFault}
 */
export const serveStreams = (module, words, streams) => new Instance(module).run(words, streams);

/**
 * The pieces, one behind the other.
 * @param {Uint8Array[]} pieces
 */
function joined(pieces) {
    const whole = new Uint8Array(pieces.reduce((sum, piece) => sum + piece.length, 0));
    let at = 0;
    for (const piece of pieces) {
        whole.set(piece, at);
        at += piece.length;
    }
    return whole;
}

/** What the program gives in an instance. */
function answerOf(instance, words, input) {
    let at = 0;
    const output = [];
    const errors = [];
    const status = instance.run(words, {
        read(room) {
            const part = input.subarray(at, at + room.length);
            room.set(part);
            at += part.length;
            return part.length;
        },
        write: (bytes) => void output.push(bytes.slice()),
        error: (bytes) => void errors.push(bytes.slice()),
    });
    return { status, output: joined(output), errors: joined(errors) };
}

/** By its module an instance that is as at first, while it does not run. */
const kept = new WeakMap();

/**
 * Runs the engine once.
 * @param {WebAssembly.Module} module
 * @param {string[]} words the words behind the program's name, as ["run"]
 * @param {Uint8Array} input what the program reads
 * @returns {{status: number, output: Uint8Array, errors: Uint8Array}}
 * @throws {EngineFault}
 */
export function serve(module, words, input) {
    const instance = kept.get(module) ?? new Kept(module);
    kept.delete(module);
    try {
        const answer = answerOf(instance, words, input);
        if (instance.restore()) kept.set(module, instance);
        return answer;
    } catch (fault) {
        if (!(fault instanceof EngineFault)) throw fault;
        return answerOf(new Instance(module), words, input); // which has the whole stack
    }
}
