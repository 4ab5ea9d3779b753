/* Texts as the bytes that the program reads. */

const encoder = new TextEncoder();

/* A byte that stands nowhere in UTF-8. */
const NO_UTF8 = Uint8Array.of(0xff);

/**
 * A text as UTF-8; bytes as they are. Half of a surrogate pair has no UTF-8: a byte that is none stands in its place, so that
 * the program names its line.
 * @param {string | Uint8Array} input
 * @param {string} name what it is, for the error
 * @returns {Uint8Array}
 */
export function bytesOf(input, name) {
  if (input instanceof Uint8Array) return input;
  if (typeof input !== "string") throw new TypeError(`${name} is no string and no Uint8Array`);
  if (input.isWellFormed()) return encoder.encode(input);
  const pieces = input.split(/\p{Surrogate}/u).map((piece) => encoder.encode(piece));
  return joined(pieces.flatMap((piece, i) => (i ? [NO_UTF8, piece] : [piece])));
}

/** @param {Uint8Array[]} pieces */
export function joined(pieces) {
  const whole = new Uint8Array(pieces.reduce((length, piece) => length + piece.length, 0));
  let at = 0;
  for (const piece of pieces) {
    whole.set(piece, at);
    at += piece.length;
  }
  return whole;
}

/* Bytes as a text; a byte order mark stays in it. */
const decoder = new TextDecoder("utf-8", { ignoreBOM: true });

/** @param {Uint8Array} bytes */
export const textOf = (bytes) => decoder.decode(bytes);

const [LF, CR, SPACE, TAB, PERCENT, SEMICOLON] = [10, 13, 32, 9, 37, 59];

/**
 * Where the first line `%%` stands, blanks around it dropped as the program drops them: its first byte, and the first of the
 * line behind it; null where there is none.
 * @param {Uint8Array} bytes
 * @returns {{ start: number, end: number } | null}
 */
export function markIn(bytes) {
  for (let at = bytes.indexOf(PERCENT); at >= 0; at = bytes.indexOf(PERCENT, at + 1)) {
    let start = at;
    while (start > 0 && isBlank(bytes[start - 1])) start--;
    if (bytes[at + 1] !== PERCENT || (start > 0 && bytes[start - 1] !== LF)) continue;
    let end = at + 2;
    while (end < bytes.length && isBlank(bytes[end])) end++;
    if (bytes[end] === CR && (end + 1 === bytes.length || bytes[end + 1] === LF)) end++;
    if (end === bytes.length || bytes[end] === LF) return { start, end: Math.min(end + 1, bytes.length) };
  }
  return null;
}

const isBlank = (byte) => byte === SPACE || byte === TAB;

/** The last line that is not blank; empty where there is none. @param {Uint8Array} bytes */
export function lastLineIn(bytes) {
  for (let end = bytes.length; end > 0; ) {
    const start = bytes.lastIndexOf(LF, end - 1) + 1;
    const line = textOf(bytes.subarray(start, end)).trim();
    if (line !== "") return line;
    end = start - 1;
  }
  return "";
}

/** A schedule with blanks in the place of its comments. @param {Uint8Array} schedule */
export function withoutComments(schedule) {
  const kept = Uint8Array.from(schedule);
  for (let start = 0; start < kept.length; ) {
    const found = kept.indexOf(LF, start);
    const end = found < 0 ? kept.length : found;
    let first = start;
    while (isBlank(kept[first])) first++;
    if (first < end && kept[first] === SEMICOLON) kept.fill(SPACE, first, end);
    start = end + 1;
  }
  return kept;
}

/**
 * A schedule, a line `%%`, and what stands behind it, as `conform` and `debug` read them.
 * @param {Uint8Array} schedule
 * @param {Uint8Array} rest
 */
export function withRest(schedule, rest) {
  return joined([schedule, encoder.encode(isEnded(schedule) ? "%%\n" : "\n%%\n"), rest]);
}

const isEnded = (bytes) => bytes.length === 0 || bytes[bytes.length - 1] === LF;
