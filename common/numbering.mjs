// The line of an instruction that an answer of otbench names by a number (docs/FORMATS.md, "Lines, instructions, places"):
//
//     {"at":3,"stopped":"LinkEmpty"}                    instruction 3 is line 7: deliver 0
//     {"verdict":"differs","at":7,"line":11, ..}        place 7 is behind line 11, instruction 6: deliver 0

import { trimmed } from "./input.mjs";
import { outlineOf } from "./outline.mjs";

/** The line of an instruction in a schedule's text, from 1; null where it has none of this number. @param {number} number @param {string} text */
export function lineOf(number, text) {
  const line = outlineOf(text).lines[number];
  return line === undefined ? null : line + 1;
}

const WORDS = /^(\S+)(?:[ \t]+(\d+))?/;

/* The word and the client of an instruction's line. */
function wordsOf(line, text) {
  const [, word, client] = WORDS.exec(trimmed(text.split("\n")[line - 1])) ?? [];
  return client === undefined ? word : `${word} ${Number(client)}`;
}

/** The sentence that says the line of a refused instruction; null where the text has none of its number. @param {number} number @param {string} text */
export function stopTold(number, text) {
  const line = lineOf(number, text);
  return line === null ? null : `instruction ${number} is line ${line}: ${wordsOf(line, text)}`;
}

/** The line of what conform names, a difference or a limit: at the end that of the last instruction performed; null where there is none. @param {import("./conformance.mjs").Answer} answer @param {string} text */
export const lineNamed = ({ at, line }, text) => line ?? lineOf(at - 1, text);

/**
 * The place at which a port's lines for some instructions end, where that is before the schedule's last one: nothing is compared from there on. Null where the last
 * line is that of the last instruction, of a stop or of the end. The lines conform.
 * @param {string} last of the lines @param {string} text of the schedule
 */
export function linesEndIn(last, text) {
  const { at, stopped, end } = JSON.parse(last);
  return stopped === undefined && end === undefined && lineOf(at, text) !== null ? at : null;
}

/** The words for that, behind `the port's` or `its`. @param {number} place @param {string} text */
export function linesEndTold(place, text) {
  const line = lineOf(place, text);
  return `lines end at place ${place}, before line ${line}, instruction ${place}: ${wordsOf(line, text)}; nothing is compared from there on`;
}

/** The sentence that says this line; null where there is none. @param {import("./conformance.mjs").Answer} answer @param {string} text */
export function placeTold({ verdict, at, ...named }, text) {
  if (verdict === "stopped") return stopTold(at, text);
  const line = lineNamed({ at, ...named }, text);
  const number = outlineOf(text).lines.indexOf(line - 1);
  return number < 0 ? null : `place ${at} is ${number < at ? "behind" : "before"} line ${line}, instruction ${number}: ${wordsOf(line, text)}`;
}
