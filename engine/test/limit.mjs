/** An engine that may have less memory. */

/** A number as WebAssembly's files write it: seven bits a byte, the lowest first. */
function written(number) {
    const bytes = [];
    for (; number > 127; number >>>= 7) bytes.push((number & 127) | 128);
    return [...bytes, number];
}

/** @returns {[number, number]} the number at a byte, and where the next one stands */
export function numberAt(bytes, at) {
    for (let number = 0, shift = 0; ; shift += 7) {
        const byte = bytes[at++];
        number += (byte & 127) * 2 ** shift;
        if (byte < 128) return [number, at];
    }
}

const MEMORY = 5;
const HAS_MAXIMUM = 1;

/**
 * The engine's file with another maximum of its memory.
 * @param {Uint8Array} file
 * @param {number} more how many pages of 64 KiB it may grow by
 */
export function limited(file, more) {
    let at = 8;
    while (at < file.length) {
        const [size, from] = numberAt(file, at + 1);
        if (file[at] === MEMORY) {
            const [least] = numberAt(file, from + 2);
            const section = [1, HAS_MAXIMUM, ...written(least), ...written(least + more)];
            return Buffer.concat([file.subarray(0, at), Uint8Array.from([MEMORY, section.length, ...section]), file.subarray(from + size)]);
        }
        at = from + size;
    }
    throw new Error("a module without a memory of its own");
}
