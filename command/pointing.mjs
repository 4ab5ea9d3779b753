/*
 * Where a fault is: what `explain` says below it, and of a schedule's text its line, with a caret below the column.
 *
 *     otbench: line 2: UnknownWord                           the program
 *       line 2, column 1: found "edti"; wanted edit, take, ..
 *       edti 0 ["a"]
 *       ^
 */

import { readFault } from "../common/faults.mjs";
import { textOf } from "../common/text.mjs";
import { visible } from "../common/visible.mjs";

const MOST = 72; // characters of a line that are shown
const LONGEST = 1 << 20; // a line of more is not looked through for them

/* The characters of a line that are shown, around one of them, and which of these that is. */
function windowOf(characters, at) {
  if (characters.length <= MOST) return { shown: characters, at };
  const from = Math.max(0, Math.min(at - MOST / 2, characters.length - MOST));
  const shown = characters.slice(from, from + MOST);
  if (from > 0) shown[0] = "…";
  if (from + MOST < characters.length) shown[MOST - 1] = "…";
  return { shown, at: at - from };
}

const WIDE = /[\p{Emoji_Presentation}\u1100-\u115f\u2e80-\ua4cf\uac00-\ud7a3\uf900-\ufaff\ufe30-\ufe6f\uff00-\uff60\uffe0-\uffe6]/gu;

/* Blanks as wide as a text; a tab is one. */
const blanksOf = (text) => text.replace(/[\p{M}\u200d]/gu, "").replace(WIDE, "  ").replace(/[^\t ]/gu, " ");

/* The line of a fault and the caret; no lines where the text has no such line, or it is empty. */
function caretBelow(number, column, text) {
  const line = text.split("\n")[number - 1]?.replace(/\r$/, "") ?? "";
  if (line.trim() === "" || line.length > LONGEST) return [];
  const { shown, at } = windowOf([...line], Math.min(column - 1, [...line].length));
  return [`  ${visible(shown.join(""))}`, `  ${blanksOf(visible(shown.slice(0, at).join("")))}^`];
}

/**
 * The lines below a fault.
 * @param {string} told what `explain` said of the input, on standard error
 * @param {boolean} isTold whether that stands there already
 * @returns {string[]}
 */
export const wordsBelow = (told, isTold) => (isTold ? [] : told.split("\n").slice(1, -1).map(visible));

/**
 * The line of a schedule's text with a caret below its fault.
 * @param {(words: string[], input: Uint8Array) => import("../npm/otbench.mjs").Answer} ask the program
 * @param {Uint8Array} schedule
 * @returns {string[]}
 */
export function pointing(ask, schedule) {
  const { line, column } = readFault(textOf(ask(["check", "--json"], schedule).output)) ?? {};
  return column === undefined ? [] : caretBelow(line, column, textOf(schedule));
}
