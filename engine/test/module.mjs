/** Small modules that the host takes for an engine. */

/** A signed number as WebAssembly's files write it: seven bits a byte, the lowest first. */
export function signed(number) {
    const bytes = [];
    for (; number < -64 || number > 63; number >>= 7) bytes.push((number & 127) | 128);
    return [...bytes, number & 127];
}

/** Code that stops the engine; that does it where a number is on top that is not 0. */
export const ALWAYS = [0x00];
export const IF = [0x04, 0x40, 0x00, 0x0b];

/** Code that puts a number on top, or the stack pointer; code behind two of them. */
export const number = (value) => [0x41, ...signed(value)];
export const POINTER = [0x23, 0];
export const [LESS, MINUS, LOAD, STORE] = [[0x48], [0x6b], [0x28, 2, 0], [0x36, 2, 0]];
export const SET_POINTER = [0x24, 0];
export const DROP = [0x1a];
export const growBy = (pages) => [...number(pages), 0x40, 0, ...DROP];

const sized = (part) => {
    const length = [part.length & 127, part.length >> 7];
    return length[1] ? [length[0] | 128, length[1], ...part] : [length[0], ...part];
};
const named = (name) => sized([...new TextEncoder().encode(name)]);
const section = (id, ...parts) => [id, ...sized([parts.length, ...parts.flat()])];

/**
 * A module whose `_start` has that code.
 * @param {number[]} code
 * @param {{ bottom?: number, pages?: number }} [memory] where its stack begins, and how much memory it has at first
 */
export function moduleOf(code, { bottom = 16384, pages = 1 } = {}) {
    return new WebAssembly.Module(
        Uint8Array.from([
            ...[0, 97, 115, 109, 1, 0, 0, 0],
            ...section(1, [0x60, 0, 0]),
            ...section(3, [0]),
            ...section(5, [0, ...signed(pages)]),
            ...section(6, [0x7f, 1, ...number(bottom), 0x0b]),
            ...section(7, [...named("_start"), 0, 0], [...named("memory"), 2, 0], [...named("__stack_pointer"), 3, 0]),
            ...section(10, sized([0, ...code, 0x0b])),
        ]),
    );
}
