/*
 * What the command says below an answer of status 1, on standard error; and of status 0 where a recording is cut, or a port's lines end early:
 *
 *     stopped at 3: LinkEmpty                                   the program
 *     otbench: instruction 3 is line 7: deliver 0               the line of what it has named
 *     otbench: what happened, in words: otbench explain a.ots   how to ask on
 */

import { seen } from "../terminal/names.mjs";
import { conformCall, readAnswer } from "../common/conformance.mjs";
import { linesEndIn, linesEndTold, placeTold, stopTold } from "../common/numbering.mjs";
import { outlineOf } from "../common/outline.mjs";
import { formOf } from "./files.mjs";
import { kindOf } from "./kinds.mjs";
import { misspelled, misspelledIn } from "./misspelled.mjs";
import { pointing, wordsBelow } from "./pointing.mjs";
import { fileWord } from "./shell.mjs";
import { lastLineIn, markIn, textOf } from "../common/text.mjs";

/**
 * @typedef {object} Call words that were run
 * @property {string} word
 * @property {string[]} flags
 * @property {string[]} files
 * @property {string} name what the command is called, for the shell
 * @property {(words: string[], input: Uint8Array) => import("../npm/otbench.mjs").Answer} ask the program
 */

/* What `explain` tells of an answer. */
const TOLD = { run: "what happened", check: "what happened", steps: "what happened", complete: "what happened", judge: "what the verdict says", conform: "what ot.js does there" };

/* The commands over a schedule's text that say which instruction is refused. */
const RUNNING = new Set(["run", "check", "steps", "complete"]);

/* Of an input that is something else than what the command reads. */
const KINDS = {
  image: "this is an image, which run --image and dis read",
  trace: "this is a trace, which judge reads",
  plan: "this is a plan, which threads reads",
  schedule: "this is a schedule's text, which run, check and asm read",
};
const LINES = "these are lines of a port, which conform reads behind the schedule, or in a second file";

/* What may be wrong with the lines of a port as a whole: by the field that differs, and what was found. */
const NO_LINE = "the port has no line there; its lines stand behind the schedule and a line '%%', or in a second file";
const LINES_END = "the port's lines end there";
const NO_FORM = "each line of a port is one JSON object that has at, a number: docs/FORMATS.md, What a port prints";
const MORE_LINES = "the port has more lines than the schedule has instructions";
const OTHER_PLACE = "at counts performed instructions, and is 1 in the first one's line; conform --sparse skips instructions without a line";
const OF_PORT = "is a line of a port: conform wants a line '%%' in front of those";
const NO_VALUE = "no line has a value that is counted: docs/FORMATS.md, What a port prints";

/* Of this command alone: the second file of `debug` has commands. */
const COMMANDS = "the second file has commands: docs/FORMATS.md, Debugger commands; the lines of a port stand behind --port";

/* What `check` says of a schedule: its fault, or which instruction is refused. */
const checked = (ask, schedule) => JSON.parse(textOf(ask(["check", "--json"], schedule).output) || "{}");

/* What conform answers, as a value; null where the schedule is refused. */
function conformanceOf({ flags, ask }, input) {
  return readAnswer(textOf(ask([...conformCall(flags.includes("--sparse")), "--json"], input).output));
}

/* Of a port's line among those of the schedule what is missing. */
const ofPortLine = ({ fault, line }, text) => (fault === "UnknownWord" && /^[ \t]*\{/.test(text.split("\n")[line - 1]) ? [`line ${line} ${OF_PORT}`] : []);

/* What may be wrong with a port's lines, by what conform answered. */
function faultOfLines({ verdict, at, instruction, key, found }) {
  if (verdict === "nothing compared") return NO_VALUE;
  if (instruction === "after the end" || (instruction === "end" && key === "at")) return MORE_LINES;
  if (key === "line" && found === "nothing") return at === 1 ? NO_LINE : LINES_END;
  if (key === "line") return NO_FORM;
  return key === "at" ? OTHER_PLACE : null;
}

/* Words for the first file, or for what came otherwise. One file that `conform` reads has a line '%%' in it, and is no schedule. */
function asking(kind, { word, files, name }) {
  const words = `${name} explain${kind === "schedule" ? "" : ` --${kind}`}`;
  const [file = "-"] = word === "conform" && kind === "schedule" && files.length < 2 ? [] : files;
  return file === "-" ? `give the ${kind} to ${words}` : `${words} ${fileWord(file)}`;
}

const ofKind = (kind, call) => (kind === "lines" ? LINES : `${KINDS[kind]}; in words: ${asking(kind, call)}`);

/* That a recorded schedule ends before its logs do, and where; `explain` and `conform` say it themselves. */
function cutOf({ word, flags, files: [file = "-"] }, input) {
  if (!["run", "check", "complete"].includes(word) || formOf(word, flags) !== "schedule") return [];
  const { cut } = outlineOf(textOf(input));
  return cut === null ? [] : [`${file === "-" ? "the schedule" : fileWord(file)} ends before its logs: ${seen(cut)}`];
}

/* The sessions of an input, each { schedule, lines }: one, or many with a line `%%` behind each part. */
function sessionsIn(input, areMany) {
  const sessions = [];
  for (let [rest, mark] = [input, markIn(input)]; mark !== null; mark = markIn(rest)) {
    const behind = rest.subarray(mark.end);
    const end = (areMany && markIn(behind)) || { start: behind.length, end: behind.length };
    sessions.push({ schedule: rest.subarray(0, mark.start), lines: behind.subarray(0, end.start) });
    rest = behind.subarray(end.end);
  }
  return sessions;
}

/* Of lines for some instructions, which conform, where they end, if that is before the schedule's last one: nothing is compared from there on. */
function linesEndOf({ word, flags }, input) {
  if (word !== "conform" || !flags.includes("--sparse")) return [];
  const areMany = flags.includes("--many");
  const [first, ...more] = sessionsIn(input, areMany).flatMap(({ schedule, lines }, i) => {
    const text = textOf(schedule);
    const place = linesEndIn(lastLineIn(lines), text);
    return place === null ? [] : [`${areMany ? `session ${i + 1}: ` : ""}the port's ${linesEndTold(place, text)}`];
  });
  if (more.length === 0) return first === undefined ? [] : [first];
  return [first, `the lines of ${more.length} more session${more.length === 1 ? "" : "s"} end before the last instruction, too`];
}

/* Of an input that was refused: where its fault is. */
function refused({ word, flags, ask }, reads, input, errors) {
  const isTold = word === "explain" && !flags.includes("--json");
  const told = isTold ? errors : textOf(ask(reads === "schedule" ? ["explain"] : ["explain", `--${reads}`], input).errors);
  const below = reads === "schedule" ? pointing(ask, input) : reads === "image" ? [] : said(misspelledIn(reads, input));
  return [...wordsBelow(told, isTold), ...below];
}

/* Of an input that was answered: the line of what is named, what may be wrong with a port's lines, and how to ask on. */
function answered(call, reads, named) {
  const { word } = call;
  return [...named, Object.hasOwn(TOLD, word) ? `${TOLD[word]}, in words: ${asking(reads, call)}` : null].filter(Boolean);
}

const said = (lines) => lines.map((line) => `otbench: ${line}`);

/* The hints to an answer of status 1. */
function ofFault(call, kept) {
  const { word, flags, files, ask } = call;
  if (flags.includes("--many")) return []; // what is read is many inputs
  const [output, errors] = [textOf(kept.output), textOf(kept.errors)];
  const reads = formOf(word, flags);
  const isRefused = output === "" || errors !== "";
  const kind = isRefused ? (kindOf(kept.input, reads) ?? reads) : reads;
  if (kind !== reads) return said([ofKind(kind, call)]);
  if (word === "debug") return files.length === 2 ? said([COMMANDS]) : [];
  const mark = reads === "schedule" ? markIn(kept.input) : null;
  const schedule = mark ? kept.input.subarray(0, mark.start) : kept.input;
  const conformance = word === "conform" && errors === "" ? conformanceOf(call, kept.input) : null;
  if (conformance?.verdict === "conforms") return said(linesEndOf(call, kept.input)); // of a schedule that is cut
  if (conformance) return said(answered(call, reads, [placeTold(conformance, textOf(schedule)), faultOfLines(conformance), ...misspelled(conformance.unknown)]));
  const told = reads === "schedule" ? checked(ask, schedule) : {};
  const isStopped = RUNNING.has(word) && told.stopped !== undefined;
  if (errors === "" || isStopped) return said(answered(call, reads, [isStopped ? stopTold(told.at, textOf(schedule)) : null]));
  return [...refused(call, reads, schedule, errors), ...said(ofPortLine(told, textOf(schedule)))];
}

/**
 * The hints, a line each.
 * @param {Call} call
 * @param {number} status
 * @param {{ input: Uint8Array, output: Uint8Array, errors: Uint8Array }} kept what it read; of `judge` and `conform` what was printed; and what it said on standard error
 * @returns {string[]}
 */
export const hintsOf = (call, status, kept) => [...(status === 1 ? ofFault(call, kept) : status === 0 ? said(linesEndOf(call, kept.input)) : []), ...said(status > 1 ? [] : cutOf(call, kept.input))];
