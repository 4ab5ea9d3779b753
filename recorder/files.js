/* The bytes of the recorder's files. */

import { isUtf8 } from "node:buffer";

function isJson(bytes) {
  try {
    JSON.parse(bytes);
    return true;
  } catch {
    return false;
  }
}

/* The bytes of a file without a last line that is half, and what is said of that: { whole, cut }. Who writes a line ends it with an LF. */
export function withoutHalf(bytes, file) {
  const start = bytes.lastIndexOf("\n") + 1;
  const last = bytes.subarray(start);
  if (start === 0 || last.toString().trim() === "" || isJson(last)) return { whole: bytes, cut: null };
  const whole = bytes.subarray(0, start);
  return { whole, cut: `${file}, line ${whole.toString("latin1").split("\n").length} is half: the log is cut there` };
}

/* A file's text. No character of UTF-8 has an LF in it, so each line is looked at by itself for the fault. */
export function decode(bytes, file) {
  if (isUtf8(bytes)) return bytes.toString("utf8");
  const lines = bytes.toString("latin1").split("\n");
  const at = lines.findIndex((line) => !isUtf8(Buffer.from(line, "latin1")));
  throw new Error(`${file}, line ${at + 1} is no UTF-8`);
}
