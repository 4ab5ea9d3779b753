/*
 * A schedule counts Unicode scalar values, and ot.js counts UTF-16 units. A port that counts units is given the schedule in units,
 * and what it prints is turned back:
 *
 *     schedule, in scalars ── inUnits ──▶ driver ── its lines, in units ── inScalars ──▶ conform
 *
 * Each operation is counted over the text that it applies to in ot.js. A length that cuts a surrogate pair of that text or passes
 * its end, and half of a pair in a text, are none of a schedule: a string that says so stands there, which conform finds to differ.
 */

import { valueIn } from "./json.mjs";
import { valuesOf, written } from "./schedule.mjs";
import { textOf } from "./text.mjs";

/* A surrogate, or an escape of one: without them a schedule has the same lengths in both. */
const SURROGATE = /[\ud800-\udfff]|\\ud[89a-f]/i;

/**
 * A schedule's text in units, and the way back for the lines of whoever performs it.
 * @param {string} schedule
 * @param {import("../npm/otbench.mjs").Bench["steps"]} steps
 * @returns {{ inUnits: string, inScalars: (printed: import("../npm/otbench.mjs").PortLines) => import("../npm/otbench.mjs").PortLines }}
 */
export function translation(schedule, steps) {
  if (!SURROGATE.test(schedule)) return { inUnits: schedule, inScalars: (printed) => printed };
  const values = valuesOf(schedule);
  const overs = textsOf(steps(schedule, { documents: true }));
  const instructions = values.instructions.map((it, i) =>
    it.edit && overs[i + 1] ? { ...it, edit: unitsOf(it.edit, overs[i + 1].edit) } : it,
  );
  return {
    inUnits: written({ ...values, instructions }),
    inScalars: (printed) => linesOf(printed).map((line) => lineInScalars(line, overs)),
  };
}

/* What was printed, line by line. */
function linesOf(printed) {
  if (Array.isArray(printed)) return printed;
  return (typeof printed === "string" ? printed : textOf(printed)).split("\n");
}

/* By the place of a line of `steps`: the text that each operation of the line applies to, by the operation's key. */
function textsOf([opening, ...lines]) {
  const log = [opening.start]; // the server's document at each revision
  const documents = Array.from({ length: opening.clients }, (_, client) => (client < opening.present ? opening.start : ""));
  const clients = documents.map(() => ({ revision: 0, outstanding: [], sent: 0 })); // sent: the revision of its message
  const texts = [];
  for (const line of lines.filter((it) => it.do && !it.stopped)) {
    const { at, client } = line;
    if (line.do === "take") {
      texts[at] = { message: log[clients[client].sent], appended: log.at(-1) };
      log.push(line.document);
    } else if (client !== undefined) {
      const before = documents[client];
      documents[client] = line.document;
      if (line.revision !== undefined) Object.assign(clients[client], { revision: line.revision, outstanding: line.outstanding ?? [] });
      if (line.sent) clients[client].sent = line.sent.revision;
      const { revision, outstanding } = clients[client];
      const base = log[revision];
      texts[at] = { edit: before, applied: before, outstanding: base, sent: base, buffer: applied(outstanding, base) };
      if (line.do === "deliver") texts[at].message = log[revision - 1];
    }
  }
  return texts;
}

/* The text that an operation in scalars makes of a text. */
function applied(operation, text) {
  const characters = [...text];
  let place = 0;
  const pieces = operation.map((component) => {
    if (typeof component === "string") return component;
    const from = place;
    place += Math.abs(component);
    return component > 0 ? characters.slice(from, place).join("") : "";
  });
  return pieces.join("");
}

/** An operation over a text, the lengths of both in scalars, with lengths in units. @param {(string | number)[]} operation @param {string} text */
export function unitsOf(operation, text) {
  const characters = [...text];
  let place = 0;
  return operation.map((component) => {
    if (typeof component === "string") return component;
    const from = place;
    place += Math.abs(component);
    return Math.sign(component) * characters.slice(from, place).join("").length;
  });
}

/* A line, a text or its value. One that is no object of JSON stays as it is, and conform says so. */
function lineInScalars(line, overs) {
  const value = valueIn(typeof line === "string" ? line : JSON.stringify(line));
  if (value === null || typeof value !== "object") return line;
  const place = value.stopped === undefined ? value.at : value.at + 1; // a stop stands before its instruction's place
  return valueInScalars(value, overs[place] ?? {});
}

/* The keys whose value may be a message, an operation and its revision. */
const MESSAGES = ["sent", "message"];

function valueInScalars(line, over) {
  const turned = Object.entries(line).map(([key, value]) => {
    if (MESSAGES.includes(key) && value?.operation) return [key, { ...value, operation: operationInScalars(value.operation, over[key]) }];
    return [key, Array.isArray(value) ? operationInScalars(value, over[key]) : textOrFault(value)];
  });
  return Object.fromEntries(turned);
}

const textOrFault = (value) =>
  typeof value === "string" && !value.isWellFormed() ? `${JSON.stringify(value)} has half of a surrogate pair` : value;

const told = (operation) => `${JSON.stringify(operation)} in UTF-16 units`;

/* An operation with lengths in units over a text, with lengths in scalars; or a string that says why it has none. */
function operationInScalars(operation, text) {
  if (!Array.isArray(operation) || text === undefined) return operation;
  if (operation.some((component) => typeof component === "string" && !component.isWellFormed()))
    return `${JSON.stringify(operation)} inserts half of a surrogate pair`;
  const scalars = [];
  let place = 0;
  for (const component of operation) {
    if (!Number.isInteger(component)) {
      scalars.push(component);
      continue;
    }
    const piece = text.slice(place, (place += Math.abs(component)));
    if (place > text.length) return `${told(operation)} passes the end of ${JSON.stringify(text)}, which has ${text.length}`;
    if (!piece.isWellFormed()) return `${told(operation)} cuts a surrogate pair of ${JSON.stringify(text)}`;
    scalars.push(Math.sign(component) * [...piece].length);
  }
  return scalars;
}
