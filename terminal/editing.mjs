// Writes an edit by the texts that a report names.

import { appendFileSync, writeFileSync } from "node:fs";
import { readFile, reasonOf, Unreadable } from "../command/files.mjs";
import { complain, print } from "../command/streams.mjs";
import { markIn } from "../common/text.mjs";
import { alone, Locked } from "./lock.mjs";
import { Recording, RefusedText } from "./recording.mjs";

/** What the command takes. */
export const USAGE = `usage: otbench edit FILE C AT DELETED INSERTED
Appends to the schedule FILE the edit with which client C deletes the text DELETED at place AT of its document, and inserts INSERTED there.
AT counts characters (Unicode scalars) from 0. Either text may be empty: ''.
`;

const LF = "\n".charCodeAt(0);

/** An edit that does not fit the document, and why. */
export class Misfit extends Error {}

/**
 * The operation that deletes and inserts at a place of a document, its lengths counted in Unicode scalars.
 * @param {string} document @param {number} at @param {string} deleted @param {string} inserted
 */
export function operationAt(document, at, deleted, inserted) {
  const all = [...document];
  const gone = [...deleted].length;
  if (at > all.length) throw new Misfit(`place ${at} is behind the end of ${JSON.stringify(document)}, which is ${all.length} characters long`);
  const there = all.slice(at, at + gone).join("");
  if (there !== deleted) {
    const found = all.join("").indexOf(deleted);
    const hint = found < 0 ? "it does not stand in the document" : `it stands at place ${[...document.slice(0, found)].length}`;
    throw new Misfit(`at place ${at} of ${JSON.stringify(document)} stands ${JSON.stringify(there)}, not ${JSON.stringify(deleted)}: ${hint}`);
  }
  const rest = all.length - at - gone;
  return [...(at ? [at] : []), ...(inserted ? [inserted] : []), ...(gone ? [-gone] : []), ...(rest ? [rest] : [])];
}

/**
 * The line to append, and what it does in words.
 * @param {Recording} recording @param {number} client
 */
export function editOf(recording, client, at, deleted, inserted) {
  const { refused, end } = recording;
  if (refused) throw new Misfit(`line ${refused.line}, ${refused.words}, is refused: nothing can follow it`);
  if (client >= recording.clients) throw new Misfit(`client ${client} is not there: clients are 0 to ${recording.clients - 1}`);
  if (recording.value({ what: "state", client }, end) === "not-joined") throw new Misfit(`client ${client} has not joined`);
  const before = recording.text(client, end);
  const operation = operationAt(before, at, deleted, inserted);
  const all = [...before];
  const after = [...all.slice(0, at), inserted, ...all.slice(at + [...deleted].length)].join("");
  return { line: `edit ${client} ${JSON.stringify(operation)}`, told: `client ${client}'s document ${JSON.stringify(before)} becomes ${JSON.stringify(after)}` };
}

/** Appends a line that is made of the schedule in a file, in front of a line `%%` if there is one; answers what was made. */
function appended(file, make) {
  const all = readFile(file, ["schedule", "lines"]);
  const mark = markIn(all)?.start ?? all.length;
  const schedule = all.subarray(0, mark);
  const made = make(schedule);
  const line = `${[undefined, LF].includes(schedule.at(-1)) ? "" : "\n"}${made.line}\n`;
  if (mark === all.length) appendFileSync(file, line);
  else writeFileSync(file, Buffer.concat([schedule, Buffer.from(line), all.subarray(mark)]));
  return made;
}

/** Why these words are not understood, or null. */
function faultOf(words) {
  const missing = ["FILE", "C", "AT", "DELETED", "INSERTED"].slice(words.length);
  if (missing.length) return `${missing.join(" ")} ${missing.length === 1 ? "is" : "are"} missing`;
  if (words.length > 5) return `unexpected argument '${words[5]}' found; a text with blanks stands in quotes`;
  const wrong = ["C", "AT"].find((_, i) => !/^\d{1,9}$/.test(words[i + 1]));
  return wrong ? `invalid value '${words[wrong === "C" ? 1 : 2]}' for ${wrong}: it takes a number of one to nine digits` : null;
}

/**
 * The whole command. Answers its status: 0; 1 where the file cannot be read or written, is refused, or the edit does not fit, and where the output cannot be written; 2 where words are not understood.
 * @param {string[]} words @param {import("./recording.mjs").Ask} ask
 */
export function edit(words, ask) {
  const given = words[0] === "--" ? words.slice(1) : words;
  const [file, client, at, deleted, inserted] = given;
  const misunderstood = faultOf(given);
  if (misunderstood !== null) {
    complain(`error: ${misunderstood}\n${USAGE}`);
    return 2;
  }
  try {
    const { line, told } = alone(file, () => appended(file, (schedule) => editOf(new Recording(ask, schedule), Number(client), Number(at), deleted, inserted)));
    return print(`${line}\n${told}\n`) ? 0 : 1;
  } catch (fault) {
    if (fault instanceof RefusedText) complain(fault.message);
    else if (fault instanceof Misfit || fault instanceof Locked || fault instanceof Unreadable || fault.code) complain(`otbench edit: ${fault.code ? reasonOf(fault.path ?? file, fault) : fault.message}\n`);
    else throw fault;
    return 1;
  }
}
