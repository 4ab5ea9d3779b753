// How ot.js goes through two operations: a table with a row for each iteration of the loop of transform, or of compose. A row has the components that it takes, or
// parts of them, and what it adds to the results; ot.js' builder merges that.
//
//     transform(A, B): A outstanding ["b"], B operation ["a"]
//       at  A    B    X    Y
//       0   "b"  -    "b"  1    tie: A goes first
//       0   -    "a"  1    "a"
//     makes X ["b",1] and Y [1,"a"]

import { quoted } from "./characters.mjs";
import { compose } from "./compose.mjs";
import { transform } from "./transform.mjs";
import { isComposing, transformsOf, valuesOf } from "./why.mjs";

const SHOWN = 24; // characters of a text that are all shown
const ENDS = 8; // characters of each end of another one that are

/**
 * @typedef {import("./components.mjs").Operation} Operation
 * @typedef {{ method: "transform" | "compose", named: [string, Operation][] }} Walk the method, and its two arguments with their names
 * @typedef {{ rows: string[][], made: Operation[] }} Table the rows are cells, those of the first one their heads
 */

/* A component in few characters, each of which is seen, so that columns stay in line; a dash where there is none. */
function cellOf(component) {
  if (component === null) return "-";
  if (typeof component === "number") return String(component);
  const all = [...component];
  const [front, back] = [all.slice(0, ENDS), all.slice(-ENDS)].map((part) => quoted(part.join("")));
  return all.length <= SHOWN ? quoted(component) : `${front}..${back} (${all.length} characters)`;
}

function tableOfTransform(one, other) {
  const rows = [["at", "A", "B", "X", "Y", ""]];
  const { first, second } = transform(one, other, (step) => {
    rows.push([String(step.place), ...[step.one, step.other, step.first, step.second].map(cellOf), step.isTie ? "tie: A goes first" : ""]);
  });
  return { rows, made: [first, second] };
}

function tableOfCompose(one, other) {
  const rows = [["at", "A", "B", "X"]];
  const operation = compose(one, other, (step) => rows.push([String(step.place), ...[step.one, step.other, step.made].map(cellOf)]));
  return { rows, made: [operation] };
}

/** What a call transforms or composes, in its order. @param {import("./why.mjs").Call} call @param {{ maker: number }[]} log the server's @returns {Walk[]} */
export function walksOf(call, log) {
  if (isComposing(call)) return [{ method: "compose", named: ["buffer", "operation"].map((name) => [name, valuesOf(call, name)[0]]) }];
  return transformsOf(call, log).map(({ named }) => ({ method: "transform", named }));
}

/** @param {Walk} walk @returns {Table} */
export function tableOf({ method, named: [[, one], [, other]] }) {
  return method === "compose" ? tableOfCompose(one, other) : tableOfTransform(one, other);
}

/** The lines of one of the walks of a call. @param {Walk[]} walks @param {number} number from 0 */
export function walkLines(walks, number) {
  const { method, named } = walks[number];
  const { rows, made } = tableOf(walks[number]);
  const which = walks.length > 1 ? `${number + 1} of ${walks.length}, ` : "";
  const [one, other] = named.map(([name, operation]) => `${name} ${JSON.stringify(operation)}`);
  const widths = rows[0].map((_, i) => rows.reduce((most, row) => Math.max(most, row[i].length), 0));
  const shown = rows.map((row) => `      ${row.map((cell, i) => cell.padEnd(widths[i])).join("  ")}`.trimEnd());
  return [`    ${which}${method}(A, B): A ${one}, B ${other}`, ...shown, `    makes ${made.map((operation, i) => `${"XY"[i]} ${JSON.stringify(operation)}`).join(" and ")}`];
}
