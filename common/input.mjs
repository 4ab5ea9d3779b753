// What the page is given: lines of `otbench steps`; behind a line %% the lines that a port printed; behind the last one what
// `otbench conform` answered.

/* A line without one CR at its end, and then without blanks at both ends: nothing else is dropped by `otbench conform`. */
export function trimmed(raw) {
  const line = raw.endsWith("\r") ? raw.slice(0, -1) : raw;
  let [from, to] = [0, line.length];
  while (from < to && " \t".includes(line[from])) from++;
  while (to > from && " \t".includes(line[to - 1])) to--;
  return line.slice(from, to);
}

/* A byte order mark in front of all is left out, as browsers do where they open a file. */
export function splitInput(text) {
  const parts = [[]];
  for (const raw of text.replace(/^\ufeff/, "").split("\n")) {
    const line = trimmed(raw);
    if (line === "%%") parts.push([]);
    else if (line !== "") parts[parts.length - 1].push(line);
  }
  const [steps, ...others] = parts;
  const answer = others.length > 1 ? others.pop() : [];
  return { steps, port: others.length ? others.flat() : null, answer };
}

/*
 * In a page with its session in it each "<" is written as \u003c. In lines of JSON that is the same character; in what
 * conform answered it stands in strings, and is turned back here.
 */
export const unescapeLine = (line) =>
  line.replace(/\\(u003c|[^])/g, (escaped, rest) => (rest === "u003c" ? "<" : escaped));
