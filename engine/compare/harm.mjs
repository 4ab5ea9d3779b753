/** Inputs that are harmed: bytes, lines, numbers and words that do not belong there. */

const WORDS = ["", "-1", "18446744073709551616", "1e400", '"', "\\u", "[", "]", "{", "}", ",", "nil", "%%", "\0", "\ud83d", "edit", "read-server", "\r", "\t", "9".repeat(40)];

/** @typedef {import("./draw.mjs").Draw} Draw */

/** @param {Draw} draw @param {Buffer} bytes */
function byteChanged(draw, bytes) {
    const other = Buffer.from(bytes);
    if (other.length > 0) other[draw.below(other.length)] = draw.below(256);
    return other;
}

/** @param {Draw} draw @param {Buffer} bytes */
function cut(draw, bytes) {
    return bytes.subarray(0, draw.below(bytes.length + 1));
}

/** @param {Draw} draw @param {Buffer} bytes */
function pieceGone(draw, bytes) {
    const from = draw.below(bytes.length + 1);
    return Buffer.concat([bytes.subarray(0, from), bytes.subarray(from + 1 + draw.below(9))]);
}

/** @param {Draw} draw @param {Buffer} bytes */
function wordPut(draw, bytes) {
    const at = draw.below(bytes.length + 1);
    return Buffer.concat([bytes.subarray(0, at), Buffer.from(draw.of(WORDS)), bytes.subarray(at)]);
}

/** @param {Draw} draw @param {Buffer} bytes */
function numberChanged(draw, bytes) {
    const text = bytes.toString("latin1");
    const numbers = [...text.matchAll(/-?\d+/g)];
    if (numbers.length === 0) return wordPut(draw, bytes);
    const { 0: number, index } = draw.of(numbers);
    const other = draw.of([Number(number) + 1, Number(number) - 1, 0, 65535, 65536, 2 ** 32, "00", `${number}.5`]);
    return Buffer.from(`${text.slice(0, index)}${other}${text.slice(index + number.length)}`, "latin1");
}

/** @param {Draw} draw @param {Buffer} bytes */
function linesMoved(draw, bytes) {
    const lines = bytes.toString("latin1").split("\n");
    const [line] = lines.splice(draw.below(lines.length), 1);
    if (!draw.once(3)) lines.splice(draw.below(lines.length + 1), 0, line);
    if (draw.once(2)) lines.splice(draw.below(lines.length + 1), 0, line);
    return Buffer.from(lines.join("\n"), "latin1");
}

const HARMS = [byteChanged, cut, pieceGone, wordPut, numberChanged, numberChanged, linesMoved];

/**
 * The bytes with one to three harms done to them.
 * @param {Draw} draw @param {Buffer} bytes
 */
export function harmed(draw, bytes) {
    let other = bytes;
    for (let left = 1 + draw.below(3); left > 0; left--) other = draw.of(HARMS)(draw, other);
    return other;
}
