/* Which line of a driver's standard error says why the driver failed. */

const ERROR = /^(?:[\w.$]*(?:Error|Exception)(?: \[\w+\])?(?::|$)|\w+ \[\w*Error\]:)/; // `TypeError: ..`, `Error [CODE]: ..`, `Name [Error]: ..`
const AROUND = /^(?:\s|\}|Node\.js v\d|\(Use `node |note: |stack backtrace:$)/; // lines of the stack, and those that node and Rust print below an error

/**
 * The last line that begins with the name of an error; else the last one that is neither indented, as those of a stack are, nor one of
 * those that a runtime prints below its errors; else the last one.
 * @param {string} errors
 */
export function telling(errors) {
  const lines = errors.split("\n").map((line) => line.trimEnd()).filter(Boolean);
  const last = lines.findLast((line) => ERROR.test(line)) ?? lines.findLast((line) => !AROUND.test(line)) ?? lines.at(-1);
  return (last ?? "").trim();
}
