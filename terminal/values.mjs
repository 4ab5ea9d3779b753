// Values in few characters: what is long is cut, with its length, and of a change its place and what stands around it is shown.

import { valueIn } from "../common/json.mjs";
import { parting } from "../common/parting.mjs";

const LONG = 72; // characters that a value may have and be shown whole
const ENDS = 24; // characters that are shown of each end of a text that is cut
const AROUND = 12; // characters that are shown before and behind a change
const WORD = 200; // characters that a word without blanks may have and be shown whole
const COMPONENTS = 4; // components that are shown of an operation that is cut
const MANY = 4; // given values between the first and the last that are left out

/** A number with its thousands apart. */
const counted = (number) => String(number).replace(/\B(?=(\d{3})+$)/g, ",");

/** A text as JSON, or its two ends and its length in characters. @param {string} text */
export function shortText(text) {
  const whole = JSON.stringify(text);
  if (whole.length <= LONG) return whole;
  const all = [...text];
  if (all.length <= 2 * ENDS) return whole;
  return `${JSON.stringify(all.slice(0, ENDS).join(""))}..${JSON.stringify(all.slice(-ENDS).join(""))} (${counted(all.length)} characters)`;
}

/** An operation as JSON, its long texts cut, or its first components and their number. @param {(number | string)[]} operation */
export function shortOperation(operation) {
  const parts = operation.map((component) => (typeof component === "string" ? shortText(component) : String(component)));
  const whole = `[${parts.join(",")}]`;
  if (whole.length <= 2 * LONG || parts.length <= COMPONENTS) return whole;
  return `[${parts.slice(0, COMPONENTS).join(",")},..] (${counted(parts.length)} components)`;
}

/** A JSON text, shown short; what is none, as it is. */
function shortJson(text) {
  if (text.length <= LONG) return text;
  try {
    const value = JSON.parse(text);
    return typeof value === "string" ? shortText(value) : shortOperation(value);
  } catch {
    return text;
  }
}

const VALUES = /\[(?:"(?:[^"\\]|\\.)*"|[^"\]])*\]|"(?:[^"\\]|\\.)*"/g;

/** A line, in which long words are cut; a mark behind a word is none of it. @param {string} line */
export function shortWords(line) {
  if (line.length <= WORD) return line;
  return line.replace(/\S+?(?=[;:,]?(?!\S))/g, (word) => (word.length <= WORD ? word : `${word.slice(0, ENDS)}..${word.slice(-ENDS)} (${counted(word.length)} characters)`));
}

/** A line, in which long texts, operations and words are cut. @param {string} line */
export const shortLine = (line) => (line.length <= LONG ? line : shortWords(line.replace(VALUES, shortJson)));

/** What stands in front of a place, and behind one; two dots where there is more. */
const front = (all, at) => `${at > AROUND ? ".." : ""}${JSON.stringify(all.slice(Math.max(0, at - AROUND), at).join(""))}`;
const behind = (all, at) => `${JSON.stringify(all.slice(at, at + AROUND).join(""))}${at + AROUND < all.length ? ".." : ""}`;

/** A change of a long text: `at 500: - "old" + "new" in .."before"|"behind"..` */
function changeOfText(from, to) {
  const [one, other] = [[...from], [...to]];
  const { at, same } = parting(one, other);
  const gone = one.slice(at, one.length - same).join("");
  const come = other.slice(at, other.length - same).join("");
  const signs = [...(gone ? [`- ${shortText(gone)}`] : []), ...(come ? [`+ ${shortText(come)}`] : [])];
  return `at ${at}: ${signs.join(" ")} in ${front(other, at)}|${behind(other, other.length - same)}`;
}

/**
 * The change of a value: both where they are short, else what was deleted and inserted.
 * @param {string} title what the value is called @param {string} from a word or a JSON text @param {string} to
 */
export function change(title, from, to) {
  if (from === to) return `${title}: the same text, of other characters`;
  if (from.length + to.length <= 2 * LONG) return `${title}: ${from} -> ${to}`;
  if (from.startsWith('"') && to.startsWith('"')) return `${title} ${changeOfText(JSON.parse(from), JSON.parse(to))}`;
  return `${title}: ${shortJson(from)} -> ${shortJson(to)}`;
}

/** What stands around the component at a number of an operation: the one in front of it, and those from it on. */
function componentsAround(operation, at) {
  const from = Math.max(0, at - 1);
  const to = at + COMPONENTS;
  const parts = operation.slice(from, to).map((component) => (typeof component === "string" ? shortText(component) : JSON.stringify(component)));
  return `[${[...(from > 0 ? [".."] : []), ...parts, ...(to < operation.length ? [".."] : [])].join(",")}] (${counted(operation.length)} components)`;
}

/** How many characters of the document components retain and delete. */
const spanOf = (components) => components.reduce((sum, component) => sum + (typeof component === "number" ? Math.abs(component) : 0), 0);

/** What stands around the character at a number of a text. */
const charactersAround = (all, at) => `${front(all, at)}|${behind(all, at)} (${counted(all.length)} characters)`;

/** Two values of one kind, cut around where they part, and where that is; null where they are of two kinds. */
function parted(found, ours) {
  if (typeof found === "string" && typeof ours === "string") {
    const [one, other] = [[...found], [...ours]];
    const { at } = parting(one, other);
    return { found: charactersAround(one, at), ours: charactersAround(other, at), where: `from character ${at}` };
  }
  if (Array.isArray(found) && Array.isArray(ours)) {
    const { at } = parting(found, ours);
    return { found: componentsAround(found, at), ours: componentsAround(ours, at), where: `from component ${at}, offset ${spanOf(ours.slice(0, at))}` };
  }
  if (!Array.isArray(found?.operation) || !Array.isArray(ours?.operation)) return null;
  const { where, ...both } = parted(found.operation, ours.operation);
  return { found: `${both.found} of revision ${shortJson(JSON.stringify(found.revision) ?? "none")}`, ours: `${both.ours} of revision ${ours.revision}`, where };
}

/**
 * A value of a port and ot.js' own, both JSON texts or words: whole where they are short, else cut around the first component or character that differs.
 * @param {string} found @param {string} ours
 */
export function beside(found, ours) {
  const cut = found.length + ours.length > 2 * LONG ? parted(valueIn(found), valueIn(ours)) : null;
  return cut === null ? `${found}, ot.js ${ours}` : `${cut.found}, ot.js ${cut.ours}; ${cut.where}`;
}

const HEAD = "found ".length; // as long as "ot.js "

/** Two lines with long values, of which what stands around their first difference is left. */
function around(lines) {
  const values = lines.map((line) => [...line.slice(HEAD)]);
  const { at } = parting(...values);
  const [from, to] = [Math.max(0, at - AROUND), at + LONG];
  const cut = (value) => `${from > 0 ? ".." : ""}${value.slice(from, to).join("")}${to < value.length ? ".." : ""}`;
  return lines.map((line, i) => line.slice(0, HEAD) + cut(values[i]));
}

/** Lines, but of those with the same two first words, one behind the other, the first and the last if they are many. */
function fewer(lines) {
  const name = (line) => line?.split(" ", 2).join(" ");
  const isWithin = (i) => name(lines[i - 1]) === name(lines[i]) && name(lines[i]) === name(lines[i + 1]);
  const within = lines.filter((_, i) => isWithin(i)).length;
  if (within < MANY) return lines;
  const first = lines.findIndex((_, i) => isWithin(i));
  return lines.flatMap((line, i) => (i === first ? [`.. ${within} more; print difference shows all`] : isWithin(i) ? [] : [line]));
}

/** The words of a difference: of two long values, which stand in its second and third line, what is around their first difference; of many given ones the first and the last. @param {string[]} words */
export function shortVerdict([head, found, otjs, ...more]) {
  const values = found.length + otjs.length > 2 * LONG ? around([found, otjs]) : [found, otjs];
  return fewer([shortLine(head), ...values, ...more.map(shortLine)]);
}
