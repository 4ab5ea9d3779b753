// What the comments of a schedule tell a person: the clients' names, and why a recorded session ends before its logs do.

import { outlineOf } from "../common/outline.mjs";

const PLAIN = /^[^\p{C}\s"](?:[^\p{C}]*[^\p{C}\s])?$/u;

/** Words of a comment as a terminal shows them: as they are, or as a JSON string in which what is not seen stands by its number. */
export function seen(words) {
  if (PLAIN.test(words)) return words;
  const byNumber = (unit) => `\\u${unit.charCodeAt(0).toString(16).padStart(4, "0")}`;
  return JSON.stringify(words).replace(/\p{C}/gu, (character) => character.split("").map(byNumber).join(""));
}

/** The comments of a schedule's text: { names, cut }, a name for a client's number, and null where the session is not cut. */
export function commentsOf(schedule) {
  const { names, cut } = outlineOf(schedule);
  return { names, cut: cut === null ? null : seen(cut) };
}

/** A line with the names in it: `client 1` becomes `client 1 (ben)`, but not inside of a string, and not where otbench has named the client. */
export function named(line, names) {
  if (names.size === 0) return line;
  return line.replace(/"(?:[^"\\]|\\.)*"|\bclient (\d+)\b(?! \()/g, (found, number) => (names.has(Number(number)) ? `${found} (${seen(names.get(Number(number)))})` : found));
}
