// The text of a schedule by its lines: which line has which instruction, and the text with instructions put in or taken out.
// Whether a line is right is the engine's to say. Lines and instructions are counted from 0, places as elsewhere.

import { quoted } from "./characters.mjs";
import { trimmed } from "./input.mjs";

const OPENING = /^(clients|present|start)(?![^ \t])/;
/** A comment that says what a client is called. */
export const NAME = /^;[ \t]*client[ \t]+(\d{1,9})[ \t]+is[ \t]+(.+)$/s;
const CUT = /^;[ \t]*cut:[ \t]+(".*)$/s;

/* What a comment says, where it stands there as a JSON string. */
function unquoted(words) {
  try {
    const value = words.startsWith('"') ? JSON.parse(words) : words;
    return typeof value === "string" ? value : words;
  } catch {
    return words;
  }
}

/* A name as a comment has it: as it is, or as a JSON string where it would not be one line's rest. */
const written = (name) => (/^[^\p{C}\s"](?:[^\p{C}]*[^\p{C}\s])?$/u.test(name) ? name : quoted(name));

/**
 * @typedef {object} Outline
 * @property {number} opening how many lines there are up to the last one of the opening
 * @property {number[]} lines the line of each instruction
 * @property {Map<number, string>} names what comments `; client 0 is Ann` call the clients
 * @property {string | null} cut what the recorder's comment `; cut: ".."` says of why its schedule ends before its logs do
 */

/** @param {string} text @returns {Outline} */
export function outlineOf(text) {
  const outline = { opening: 0, lines: [], names: new Map(), cut: null };
  text.split("\n").forEach((raw, i) => {
    const line = trimmed(raw);
    if (line.startsWith(";")) return readComment(outline, line);
    if (line === "") return undefined;
    if (outline.lines.length === 0 && OPENING.test(line)) outline.opening = i + 1;
    else outline.lines.push(i);
    return undefined;
  });
  return outline;
}

function readComment(outline, line) {
  const name = NAME.exec(line);
  if (name) outline.names.set(Number(name[1]), unquoted(name[2]));
  const cut = CUT.exec(line);
  if (cut) outline.cut = unquoted(cut[1]);
}

/** The line that led to a place: the opening's last one at place 0, and -1 where there is none. */
export const lineOfPlace = ({ opening, lines }, place) => (place === 0 ? opening - 1 : (lines[place - 1] ?? -1));

/** The text up to a place: the lines up to the instruction that led there. */
export const textUpTo = (text, outline, place) => text.split("\n").slice(0, lineOfPlace(outline, place) + 1).concat("").join("\n");

/** The place behind a line: how many instructions stand up to it. */
export function placeOfLine({ lines }, line) {
  let from = 0;
  let to = lines.length;
  while (from < to) {
    const middle = (from + to) >> 1;
    if (lines[middle] <= line) from = middle + 1;
    else to = middle;
  }
  return from;
}

const RECEIPT = /^(take|deliver|ack|join) /;

/* The lines behind a place that have these instructions, each the first one that is left. */
function linesBehind(lines, outline, place, instructions) {
  const found = new Set();
  const wanted = [...instructions];
  for (const number of outline.lines.slice(place)) {
    if (wanted.length === 0) break;
    const at = wanted.indexOf(trimmed(lines[number]).replace(/[ \t]+/g, " "));
    if (at < 0) continue;
    wanted.splice(at, 1);
    found.add(number);
  }
  return found;
}

/**
 * The text of an outline with instructions behind a place. Where a message is let through, or a client joins, that stands further down,
 * the line is moved up: no message is taken twice.
 */
export function withInstructions(text, outline, place, instructions) {
  const lines = text.split("\n");
  if (lines[lines.length - 1] === "") lines.pop();
  const moved = linesBehind(lines, outline, place, instructions.filter((instruction) => RECEIPT.test(instruction)));
  const at = lineOfPlace(outline, place) + 1;
  const behind = lines.slice(at).filter((_, i) => !moved.has(at + i));
  return `${[...lines.slice(0, at), ...instructions, ...behind].join("\n")}\n`;
}

/** The text without the instruction that led to a place. */
export function withoutInstruction(text, place) {
  const lines = text.split("\n");
  lines.splice(lineOfPlace(outlineOf(text), place), 1);
  return lines.join("\n");
}

/** The text with a comment that names a client; without one where the name is empty. */
export function withName(text, client, name) {
  const lines = text.split("\n").filter((line) => Number(NAME.exec(trimmed(line))?.[1] ?? NaN) !== client);
  const words = name.trim();
  return (words ? [`; client ${client} is ${written(words)}`, ...lines] : lines).join("\n");
}
