/* The verdict of `explain --json` as a value: whether all documents must agree, and to what. docs/FORMATS.md has its members. */

import { partsOf } from "../common/told.mjs";

/**
 * @param {string} told what `explain --json` prints of a schedule
 * @param {string} words what `explain` prints of it; its comments name nobody
 * @returns {import("./otbench.mjs").Verdict}
 */
export function readVerdict(told, words) {
  const { at, stopped, verdict, document = null, waiting, choice = [], first = null, absent } = JSON.parse(told);
  const lines = partsOf(words, stopped ? at + 1 : at, false).verdict;
  const length = document === null ? null : [...document].length;
  return { verdict, document, length, waiting, choice, first, absent, text: lines.map((line) => `${line}\n`).join("") };
}
