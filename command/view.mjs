/* `otbench view`: the viewer's page with a session in it, and beside it what a port printed. */

import { gzipSync } from "node:zlib";
import { announce, FILES, inputOf, split, Unreadable } from "./files.mjs";
import { engineIfThere, viewer } from "./parts.mjs";
import { pointing } from "./pointing.mjs";
import { conformCall, isWordy, readAnswer, wordsOf } from "../common/conformance.mjs";
import { complain, print, STDIN } from "./streams.mjs";
import { bytesOf, joined, markIn, textOf } from "../common/text.mjs";

export const USAGE = `usage: otbench view [--sparse] [SCHEDULE [LINES]] > PAGE
Reads a schedule's text, and the lines that a port printed, if any: as files, or on standard input with a line '%%' between them.
Prints a page for a browser with the session in it. --sparse: instructions without a line are not compared.
`;

const utf8 = (text) => bytesOf(text, "the text");

/* The fault of a schedule and where it stands, as `explain` tells it; it tells none where there is no memory for that. */
function faultOf(serve, schedule, errors) {
  const told = serve(["explain"], schedule).errors;
  return told.length > 0 ? told : errors;
}

/**
 * The lines that the page shows, or null where the schedule is refused: those of `steps`; and behind a line `%%` the port's, and behind
 * another what `conform` answers, its value and its words.
 * @param {(words: string[], input: Uint8Array) => import("../npm/otbench.mjs").Answer} serve
 * @param {Uint8Array} input a schedule; maybe a line `%%` and what a port printed
 * @param {boolean} isSparse whether instructions without a line are not compared
 * @returns {{ schedule: Uint8Array, lines: Uint8Array | null, errors: Uint8Array, isSparse: boolean }}
 */
export function shownOf(serve, input, isSparse = false) {
  const mark = markIn(input);
  const schedule = mark ? input.subarray(0, mark.start) : input;
  const { output, errors } = serve(["steps"], schedule);
  if (!isWhole(output)) return { schedule, isSparse, lines: null, errors: faultOf(serve, schedule, errors) };
  const port = mark ? [utf8("%%\n"), input.subarray(mark.end), utf8("\n%%\n"), ...conformed(serve, input, isSparse)] : [];
  return { schedule, isSparse, lines: joined([output, ...port]), errors };
}

/* What conform answers: its value, and where that says that there is more, its words. Nothing where memory runs out. */
function conformed(serve, input, isSparse) {
  const call = conformCall(isSparse);
  const value = serve([...call, "--json"], input).output;
  const answer = readAnswer(textOf(value));
  if (answer === null) return [];
  return isWordy(answer) ? [value, ...wordsOf(answer, textOf(serve(call, input).output)).map((line) => utf8(`${line}\n`))] : [value];
}

/* Whether the last line is that of the end. */
const isWhole = (lines) => textOf(lines.subarray(lines.lastIndexOf(10, lines.length - 2) + 1)).includes('"end":');

/* Where the viewer's page takes what is shown: behind the line that ends so. */
const LINES = ' id="lines">\n';
const SPARSE_LINES = ' id="lines" data-sparse>\n';
const SCHEDULE = ' id="schedule">\n';
const MODULE = "/* the module */";

/**
 * The viewer's page with a session in it; and its schedule and the engine, where the page has places for them.
 * @param {string} viewer
 * @param {{ schedule: Uint8Array, lines: Uint8Array, isSparse?: boolean }} shown
 * @param {Uint8Array | null} engine null: the page shows the session, and does not change it
 * @returns {Uint8Array}
 */
export function pageOf(viewer, { schedule, lines, isSparse = false }, engine) {
  const page = viewer.replace(MODULE, () => (engine === null ? "" : gzipSync(engine, { level: 9 }).toString("base64")));
  const [whole, back] = cut(page, LINES);
  const front = isSparse ? `${whole.slice(0, -LINES.length)}${SPARSE_LINES}` : whole;
  const [head, text] = cut(front, SCHEDULE);
  return joined([utf8(head), text === "" ? NOTHING : escaped(schedule, MARKUP), utf8(text), escaped(lines, JSON_IN_MARKUP), utf8(back)]);
}

const NOTHING = new Uint8Array(0);

/* A text up to a mark, and the rest; all of it where the mark is not there. */
function cut(text, mark) {
  const at = text.includes(mark) ? text.lastIndexOf(mark) + mark.length : text.length;
  return [text.slice(0, at), text.slice(at)];
}

/* By a byte, what stands in its place. In JSON "<" stands in strings alone, where \u003c is the same character: no text ends an element. */
const MARKUP = new Map([["&", "&amp;"], ["<", "&lt;"]].map(([byte, text]) => [byte.charCodeAt(0), utf8(text)]));
const JSON_IN_MARKUP = new Map([["<".charCodeAt(0), utf8("\\u003c")]]);

function escaped(bytes, escapes) {
  const pieces = [];
  let from = 0;
  for (let at = 0; at < bytes.length; at++) {
    const escape = escapes.get(bytes[at]);
    if (escape === undefined) continue;
    pieces.push(bytes.subarray(from, at), escape);
    from = at + 1;
  }
  return joined([...pieces, bytes.subarray(from)]);
}

/**
 * The whole subcommand. Answers its status: 0; 1 where the input cannot be read or is refused, or the output cannot be written; 2 where words are not understood.
 * @param {(words: string[], input: Uint8Array) => import("../npm/otbench.mjs").Answer} ask
 * @param {string[]} words
 */
export async function view(ask, words) {
  const { flags, files } = split(words);
  const [unexpected] = [...flags.filter((flag) => flag !== "--sparse"), ...files.slice(FILES.view.length)];
  if (unexpected !== undefined) {
    complain(`error: unexpected argument '${unexpected}' found\n${USAGE}`);
    return 2;
  }
  announce("view", [], files);
  const parts = inputOf("view", [], files);
  if (parts.includes(STDIN)) throw new Unreadable("ReadFault");
  const { errors, ...shown } = shownOf(ask, joined(parts), flags.length > 0);
  complain(textOf(errors));
  if (shown.lines !== null) return print(pageOf(await viewer(), shown, await engineIfThere())) ? 0 : 1;
  pointing(ask, shown.schedule).forEach((line) => complain(`${line}\n`));
  return 1;
}
