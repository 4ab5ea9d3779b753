/* The examples of the page: a short course, in its order, and behind it the other sessions of a folder. */

import fs from "node:fs";
import path from "node:path";
import { bugs } from "../examples/port/bugs.js";
import { drive } from "../examples/port/drive.js";
import { makePort } from "../oracle/otjs.js";

/* What a port with a planted fault prints of a schedule. */
function linesOf(bug, text) {
  const port = makePort();
  bugs[bug](port);
  return drive(text, port);
}

/* Which session of the folder a step shows, at which place, and what to look for. */
const COURSE = [
  { title: "A tie", name: "two-clients", place: 2, sentence: "Two users type at one position. Let client 1’s message through first instead of client 0’s: which letter stands in front then?" },
  { title: "A buffer", name: "buffer", place: 1, sentence: "A user types on before the first edit is confirmed. Step on: later edits wait in the buffer, where they cancel out." },
  { title: "A late joiner", name: "late-join", place: 3, sentence: "Client 1 joins with the server’s document and revision, while client 0’s edit is still to be confirmed." },
  { title: "Both delete", name: "both-delete", place: 4, sentence: "Two users delete the same letter. What does the server append to its log for the second deletion?" },
  { title: "The weak order", name: "weak-order", place: 7, sentence: "The documents show c before x, x before a, a before c. No one order holds for all letters, and all documents agree at the end." },
  { title: "A port with a fault", name: "weak-order", place: 7, bug: "tie", sentence: "This port breaks ties the other way. Rows marked with ≠ differ from ot.js; the key d goes to the first of them." },
];

/* The first sentence of a schedule's comment. */
function sentenceOf(text) {
  const comment = /^(?:;.*\n)+/.exec(text);
  const words = comment ? comment[0].replace(/^; ?/gm, "").replaceAll("\n", " ") : "";
  return (/^.*?\.(?= |$)/.exec(words) || [words])[0].trim();
}

/** The sessions of a folder, with a sentence each: those of the course first. @returns {{ title: string, name: string, sentence: string, text: string, place: number, port: string[] | null }[]} */
export function examplesOf(folder) {
  const read = (name) => fs.readFileSync(path.join(folder, `${name}.ots`), "utf8");
  const course = COURSE.map(({ title, name, place, sentence, bug }, i) => {
    const text = read(name);
    return { title: `${i + 1} ${title}`, name, sentence, text, place, port: bug ? linesOf(bug, text) : null };
  });
  const others = fs
    .readdirSync(folder)
    .filter((file) => file.endsWith(".ots"))
    .map((file) => file.replace(/\.ots$/, ""))
    .filter((name) => !COURSE.some((step) => step.name === name))
    .sort()
    .map((name) => ({ title: name, name, sentence: sentenceOf(read(name)), text: read(name), place: 0, port: null }));
  return [...course, ...others];
}
