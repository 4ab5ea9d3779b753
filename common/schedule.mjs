/* A schedule's text as values, and back: { clients, present, start, instructions, names }, an instruction being { word, client, edit }. */

import { readSchedule } from "../examples/port/schedule.js";

/* A comment that names a client. */
const NAMED = /^[ \t]*;[ \t]*client[ \t]+(\d{1,9})[ \t]+is[ \t]+(.*?)[ \t]*\r?$/;

/** The values of a text that otbench accepts; by the clients' numbers the names that comments give them. */
export function valuesOf(text) {
  const values = { ...readSchedule(text), names: [] };
  for (const line of text.split("\n")) {
    const [, client, name] = NAMED.exec(line) ?? [];
    if (Number(client) < values.clients) values.names[client] = name;
    if (/^[ \t]*%%[ \t]*\r?$/.test(line)) break;
  }
  return values;
}

/** The text of such values. */
export function written({ clients, present, start, instructions, names }) {
  const lines = names.flatMap((name, client) => (name === undefined ? [] : [`; client ${client} is ${name}`]));
  lines.push(`clients ${clients}`);
  if (present !== clients) lines.push(`present ${present}`);
  if (start !== "") lines.push(`start ${JSON.stringify(start)}`);
  for (const { word, client, edit } of instructions)
    lines.push([word, ...(client === undefined ? [] : [client]), ...(edit ? [JSON.stringify(edit)] : [])].join(" "));
  return `${lines.join("\n")}\n`;
}

const PAIR = /[\ud800-\udbff][\udc00-\udfff]/g;
const UNIT = /[\ud800-\udfff]/g;
const FIRST_UNIT = 0xd800;
const UNITS = 0x800;

/**
 * Values of schedules in which each character past U+FFFF is one unit of its string, one of the surrogates, so that `length` counts
 * as a schedule does; and what makes a text of such values.
 * @param {string[]} texts
 */
export function withOneUnitEach(texts) {
  const pairs = [];
  const unitOf = (pair) => {
    if (!pairs.includes(pair)) pairs.push(pair);
    if (pairs.length > UNITS) throw new Error("more than 2,048 different characters past U+FFFF");
    return String.fromCharCode(FIRST_UNIT + pairs.indexOf(pair));
  };
  const pairOf = (unit) => pairs[unit.charCodeAt(0) - FIRST_UNIT];
  return {
    values: texts.map((text) => withStrings(valuesOf(text), (string) => string.replace(PAIR, unitOf))),
    textOf: (values) => written(withStrings(values, (string) => string.replace(UNIT, pairOf))),
  };
}

function withStrings(schedule, change) {
  const changed = (component) => (typeof component === "string" ? change(component) : component);
  const instructions = schedule.instructions.map((it) => (it.edit ? { ...it, edit: it.edit.map(changed) } : it));
  return { ...schedule, start: change(schedule.start), instructions };
}
