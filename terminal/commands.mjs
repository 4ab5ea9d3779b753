// The words of the debugger: what each takes and does, how many words may stand behind it, and its first letters.

import { nearest } from "../common/nearest.mjs";

const ANY = Infinity;

/** A command that cannot be performed, and why. */
export class Complaint extends Error {}

/** A command that a person has ended. */
export class Interrupted extends Complaint {}

/** The most characters of a line. */
export const MOST = 1_000_000;

const BLANK = /\s/;

/** Where the JSON string ends that begins at a place of a line; that is the line's end where it is not closed. */
function endOfString(line, from) {
  for (let at = from + 1; at < line.length; at++) {
    if (line[at] === "\\") at++;
    else if (line[at] === '"') return at + 1;
  }
  return Infinity;
}

/** Where the word ends that begins at a place of a line. */
function endOfWord(line, from) {
  const end = line[from] === '"' ? endOfString(line, from) : Infinity;
  if (end < Infinity) return end;
  let at = from;
  while (at < line.length && !BLANK.test(line[at])) at = line[from] === "[" && line[at] === '"' ? endOfString(line, at) : at + 1;
  return Math.min(at, line.length);
}

/** The words of a line; a JSON string is one, and so is an operation without blanks between its components. @param {string} line @returns {string[]} */
export function wordsIn(line) {
  if (line.length > MOST) throw new Complaint(`the line has more than ${MOST.toLocaleString("en")} characters`);
  const words = [];
  for (let at = 0; at < line.length; ) {
    const end = BLANK.test(line[at]) ? at + 1 : endOfWord(line, at);
    if (!BLANK.test(line[at])) words.push(line.slice(at, end));
    at = end;
  }
  return words;
}

/** @type {Record<string, { takes: string, most: number, does: string }>} */
export const COMMANDS = {
  step: { takes: "[N]", most: 1, does: "performs one instruction, or N" },
  next: { takes: "[N|difference]", most: 1, does: "goes to behind the same client's next instruction, or its N-th; next difference goes on to the next value in which the port differs, and did not differ the same way before" },
  back: { takes: "[N]", most: 1, does: "undoes one instruction, or N" },
  rnext: { takes: "[N|difference]", most: 1, does: "goes back to before the same client's last instruction, or its N-th; rnext difference goes back to before the last such difference" },
  run: { takes: "", most: 0, does: "goes on to the next break, change or the first difference, or to the end" },
  continue: { takes: "", most: 0, does: "does what run does" },
  rrun: { takes: "", most: 0, does: "goes back to the last break, change or the first difference, or to the opening" },
  until: { takes: "WORDS", most: ANY, does: "goes on to behind the next instruction with these first words: until take 0" },
  runtil: { takes: "WORDS", most: ANY, does: "goes back to before the last instruction with these first words" },
  goto: { takes: "P|end|NAME", most: 1, does: "goes to place P: P instructions are performed there; to the end; or to a place with a mark" },
  break: { takes: "[P|line L|WORDS] [if CONDITION] [time N]", most: ANY, does: 'stops at place P, behind the instruction of line L, behind each with these first words, or where CONDITION begins to hold: break take 1 if doc 0 contains "x", break edit 5 [100,-2]' },
  watch: { takes: "doc|state|outstanding|buffer C, watch server", most: 2, does: "stops where that changes" },
  unwatch: { takes: "", most: 0, does: "removes all watches" },
  display: { takes: "doc|state|outstanding|buffer C, display server", most: 2, does: "shows that behind each move" },
  info: { takes: "[breaks], info outstanding|buffer|message C", most: 2, does: "lists breaks, watches and displays with their numbers, and at how many places a break stops; or the edits that made an operation of client C, and what transformed and sent it: info buffer 0" },
  delete: { takes: "N", most: 1, does: "removes the break, watch or display of this number" },
  clear: { takes: "[P]", most: 1, does: "removes the breaks at place P, or all breaks, watches and displays" },
  who: { takes: "C|server N", most: 2, does: "says who inserted character N of a document, counted from 0, and how it came there" },
  blame: { takes: "C|server [FROM TO]", most: 3, does: "shows a document with the author and the instruction of each piece, the first ones of many; or of the characters from FROM up to TO all" },
  find: { takes: "[port] TEXT", most: 2, does: "goes on to behind the next instruction by which a document of ot.js gains or loses TEXT, a word or a JSON string; find port TEXT searches the documents that the port's lines have" },
  rfind: { takes: "[port] TEXT", most: 2, does: "goes back to before the last such instruction" },
  diff: { takes: "P Q [C|server], diff doc C|server C|server", most: 3, does: "shows what changed between two places, in all documents or in one, or what two documents differ in" },
  mark: { takes: "[NAME]", most: 1, does: "names the place, for goto NAME; lists the names" },
  undo: { takes: "", most: 0, does: "goes back to where the last move began, or brings back what clear, delete or unwatch removed" },
  where: { takes: "", most: 0, does: "says which instruction was performed or undone last, and where that led" },
  verdict: { takes: "", most: 0, does: "says whether all documents must agree at the place, and to what" },
  list: { takes: "[P [Q]]", most: 2, does: "shows the instructions around the place, around P, or from P to Q, with their lines, and the operations of edits" },
  show: { takes: "[C|server]", most: 1, does: "shows documents, states, outstanding operations, buffers and links; what is long is cut" },
  print: { takes: "doc|state|outstanding|buffer|message|link C, print doc server, print server, print instruction [N], print difference, print port doc|state|outstanding|buffer|revision|message|sent|edit|applied|appended C|server", most: 3, does: "shows the whole of one value of ot.js, of one that the port printed last, or of what conform answers of the port's line at the place, or else of the first one that differs; info says what made an operation" },
  explain: { takes: "[N]", most: 1, does: "describes the instruction that was performed or undone last, or instruction N, in words" },
  why: { takes: "[N] [walk [K]]", most: 3, does: "says by which method of ot.js the last instruction, or instruction N, led where it did, what each transform made, and its ties; why walk shows how ot.js goes through the components of its first transform, or of its compose, why walk K of its K-th transform" },
  source: { takes: "FILE", most: 1, does: "performs the commands of a file, line by line" },
  save: { takes: "FILE", most: 1, does: "writes breaks, watches and displays as commands to a file, which must not be there yet" },
  export: { takes: "FILE [complete]", most: 2, does: "writes the schedule up to the place to a file, which must not be there yet; with complete also what is under way there" },
  reload: { takes: "", most: 0, does: "reads the schedule's file, and the port's, again; the place, breaks and marks stay" },
  edit: { takes: "", most: 0, does: "opens the schedule in $VISUAL or $EDITOR, and reloads it" },
  help: { takes: "[WORD]", most: 1, does: "shows this" },
  quit: { takes: "", most: 0, does: "ends the session; so does the end of the input" },
};

const NAMES = Object.keys(COMMANDS);

/** Letters that several words begin with, and which of them is meant. */
const SHORT = { s: "step", b: "back", r: "run", ru: "run", c: "continue", co: "continue", d: "display", e: "explain", u: "until", w: "watch", l: "list", h: "help", q: "quit", n: "next", i: "info", p: "print" };

/**
 * The word that this one is or begins.
 * @param {string} word
 * @returns {{ name: string, fault?: undefined } | { name?: undefined, fault: string }}
 */
export function commandOf(word) {
  if (Object.hasOwn(COMMANDS, word)) return { name: word };
  if (Object.hasOwn(SHORT, word)) return { name: SHORT[word] };
  const begun = NAMES.filter((name) => name.startsWith(word));
  if (begun.length === 1) return { name: begun[0] };
  if (begun.length > 1) return { fault: `${word} begins ${begun.join(", ")}` };
  const near = nearest(word, NAMES);
  return { fault: `there is no ${word}; ${near.length ? `nearest: ${near.join(", ")}` : "help lists all words"}` };
}

const lineOf = (name) => `${`${name} ${COMMANDS[name].takes}`.trimEnd()}: ${COMMANDS[name].does}`;

const SHORT_TAKES = 60; // characters

/** What a command takes, in few words. @param {string} name */
export function takenBy(name) {
  const { takes } = COMMANDS[name];
  if (takes === "") return `${name} takes no word`;
  return takes.length > SHORT_TAKES ? `${name}: help ${name} says what it takes` : `${name} ${takes}`;
}

/** The lines of help. @param {string} [word] */
export function helpOf(word) {
  if (word === undefined) {
    const width = Math.max(...NAMES.map((name) => name.length));
    return [...NAMES.map((name) => `${name.padEnd(width)}  ${COMMANDS[name].does}`), "First letters do, an empty line repeats. A place counts performed instructions, an instruction is counted from 0."];
  }
  const { name, fault } = commandOf(word);
  return [fault ?? lineOf(name)];
}
