// The colours of a terminal: where a run stands, why it stopped, and how a port differs.

const [BOLD, RED, GREEN, YELLOW] = [1, 31, 32, 33];

/** What a line of the debugger begins with, and how it is shown. The first that fits counts. */
const KINDS = [
  [/^the port's first difference /, RED],
  [/^(behind|before|the end:) /, BOLD],
  [/^->/, GREEN],
  [/^(break at place \d|(client \d+( \(.*?\))? (doc|state|outstanding|buffer)|the server's (revision|document))( of (ot\.js|the port))?(:| at \d))/, YELLOW],
];

/**
 * How lines are coloured for an output: not at all where it is no terminal, or a person wants none (https://no-color.org).
 * @param {{ isTTY?: boolean }} output
 * @returns {(line: string, isOfDifference?: boolean) => string} whether the line is the first of what conform says of a difference
 */
export function colouring(output) {
  if (!output.isTTY || process.env.NO_COLOR || process.env.TERM === "dumb") return (line) => line;
  return (line, isOfDifference = false) => {
    const colour = isOfDifference ? RED : KINDS.find(([beginning]) => beginning.test(line))?.[1];
    return colour ? `\x1b[${colour}m${line}\x1b[0m` : line;
  };
}
