/*
 * Files as words, in the place of standard input:
 *
 *     otbench run session.ots                   the file is what is read
 *     otbench conform session.ots lines.jsonl   two files, a line %% between them
 *     otbench debug session.ots -               the second one is standard input
 *     otbench check monday.ots tuesday.ots      each by itself
 */

import fs from "node:fs";
import { isatty } from "node:tty";
import { complain, readSome, STDERR, STDIN } from "./streams.mjs";
import { markIn, withRest } from "../common/text.mjs";

/** The files that a subcommand takes; the second one is what stands behind a schedule and a line `%%`. */
export const FILES = {
  run: ["SCHEDULE"],
  check: ["SCHEDULE"],
  debug: ["SCHEDULE", "COMMANDS"],
  asm: ["SCHEDULE"],
  dis: ["IMAGE"],
  judge: ["TRACE"],
  steps: ["SCHEDULE"],
  complete: ["SCHEDULE"],
  explain: ["SCHEDULE"],
  conform: ["SCHEDULE", "LINES"],
  threads: ["PLAN"],
  view: ["SCHEDULE", "LINES"],
};

/** The subcommands that take several files, and answer each. */
export const ANSWERING_EACH = new Set(["run", "check", "judge", "explain"]);

/* The subcommands whose input goes on behind a line `%%`. Of the others a schedule ends there, as recorded ones may. */
const GOING_ON = new Set(["conform", "debug", "view"]);

/** The most bytes that are read of each kind. */
export const MOST = { schedule: 1 << 28, image: 1 << 28, trace: 1 << 28, plan: 1 << 26, lines: 1 << 30, commands: 1 << 26, log: 1 << 30 };

/* What an option has a command read. */
const FORMS = { "--image": "image", "--trace": "trace", "--plan": "plan" };

/**
 * What a subcommand reads, or first reads: schedule, image, trace or plan; null where it reads no file.
 * @param {string} word
 * @param {string[]} flags
 */
export function formOf(word, flags) {
  if (!Object.hasOwn(FILES, word)) return null;
  const flag = flags.findLast((it) => Object.hasOwn(FORMS, it));
  return FORMS[flag] ?? FILES[word][0].toLowerCase();
}

/** A file that cannot be read. */
export class Unreadable extends Error {}

/** The options that the program has for commands that read files. Behind another one a word may be its value. */
export const OPTIONS = new Set([...Object.keys(FORMS), "--documents", "--all", "--sparse", "--many", "--json"]);

const REASONS = { ENOENT: "there is no such file", EISDIR: "is a folder", EACCES: "cannot be read", EEXIST: "is there already" };

/** Why a file cannot be read or written, behind its path. @param {string} path @param {NodeJS.ErrnoException} fault */
export const reasonOf = (path, fault) => `${path}: ${Object.hasOwn(REASONS, fault.code) ? REASONS[fault.code] : fault.message}`;

const PIECE = 1 << 16; // bytes that are read at a time

/**
 * The rest of a stream.
 * @param {number} stream
 * @param {number} most the most bytes that it may have
 * @param {Uint8Array[]} pieces takes what was read, also where reading fails
 * @returns {boolean} whether it has no more than that
 */
function readPieces(stream, most, pieces) {
  for (let size = 0; ; ) {
    const room = Buffer.allocUnsafe(PIECE);
    const count = readSome(stream, room);
    if (count === 0) return true;
    pieces.push(room.subarray(0, count));
    size += count;
    if (size > most) return false;
  }
}

const grouped = (number) => number.toLocaleString("en");

const NAMES = { schedule: "a schedule", image: "an image", trace: "a trace", plan: "a plan", lines: "a port's lines", commands: "commands", log: "a log" };

/* The most bytes of these kinds, one behind the other. */
const limitOf = (kinds) => kinds.reduce((sum, kind) => sum + MOST[kind], 0);
const tooLarge = (name, kinds) => new Unreadable(`${name}: it has more than ${grouped(limitOf(kinds))} bytes, which is the most of ${kinds.map((kind) => NAMES[kind]).join(" and ")}`);

/** The rest of standard input for a program that cannot share it. @param {number} stream @returns {Uint8Array} */
export function readRest(stream) {
  const pieces = [];
  try {
    if (!readPieces(stream, MOST.lines, pieces)) throw tooLarge("standard input", ["lines"]);
  } catch (fault) {
    throw fault instanceof Unreadable ? fault : new Unreadable("ReadFault");
  }
  return Buffer.concat(pieces);
}

/**
 * The bytes of a file, as a Buffer.
 * @param {string} file
 * @param {string[]} kinds what stands in it, one behind the other
 */
export function readFile(file, kinds) {
  let stream;
  try {
    stream = fs.openSync(file, "r");
    const pieces = [];
    if (!readPieces(stream, limitOf(kinds), pieces)) throw tooLarge(file, kinds);
    return Buffer.concat(pieces);
  } catch (fault) {
    throw fault instanceof Unreadable ? fault : new Unreadable(reasonOf(file, fault));
  } finally {
    if (stream !== undefined) fs.closeSync(stream);
  }
}

/**
 * What standard input has; where reading fails, its number behind what was read, so that the program tells the fault.
 * @param {string[]} kinds
 * @returns {(Uint8Array | number)[]}
 */
function readInput(kinds) {
  const pieces = [];
  try {
    if (!readPieces(STDIN, limitOf(kinds), pieces)) throw tooLarge("standard input", kinds);
  } catch (fault) {
    if (fault instanceof Unreadable) throw fault;
    return pieces.length === 0 ? [STDIN] : [Buffer.concat(pieces), STDIN];
  }
  return [Buffer.concat(pieces)];
}

/** Whether a word names a file that is there. */
export function isFile(word) {
  try {
    return fs.statSync(word).isFile();
  } catch {
    return false;
  }
}

/** Whether a word names a file of JSON Lines, such as a port's: its first character that is not blank begins an object, or it has no byte. @param {string} word */
export function hasLines(word) {
  if (!isFile(word)) return false;
  let stream;
  try {
    stream = fs.openSync(word, "r");
    const room = Buffer.alloc(PIECE);
    return /^\s*\{|^$/.test(room.toString("latin1", 0, readSome(stream, room)));
  } catch {
    return false; // why it cannot be read says who reads it
  } finally {
    if (stream !== undefined) fs.closeSync(stream);
  }
}

/** The words that are files, and the others; behind `--` all are files. */
export function split(words) {
  const end = words.indexOf("--");
  const front = end < 0 ? words : words.slice(0, end);
  const isFlag = (word) => word.startsWith("-") && word !== "-";
  return { flags: front.filter(isFlag), files: [...front.filter((word) => !isFlag(word)), ...words.slice(front.length + 1)] };
}

/** Whether words ask for help. Behind `--` no word does. @param {string[]} words */
export function asksForHelp(words) {
  const end = words.indexOf("--");
  return (end < 0 ? words : words.slice(0, end)).some((word) => word === "-h" || word === "--help");
}

/** Says what is awaited where somebody has to type it. */
export function announce(word, flags, files) {
  const all = [formOf(word, flags).toUpperCase(), ...FILES[word].slice(1)];
  const awaited = files.length === 0 ? all : all.filter((_, i) => files[i] === "-");
  if (awaited.length > 0 && isatty(STDIN) && isatty(STDERR)) complain(`otbench: reading ${awaited.join(", a line '%%', ")} from the terminal; Ctrl-D ends it\n`);
}

/* A schedule up to a line `%%`. */
const upToMark = (bytes) => bytes.subarray(0, markIn(bytes)?.start ?? bytes.length);

const NOTHING = new Uint8Array(0);

/**
 * What a subcommand reads, in parts: bytes, and standard input by its number where the program has to read by itself.
 * @param {string} word
 * @param {string[]} flags
 * @param {string[]} files none, one or two
 * @returns {(Uint8Array | number)[]}
 */
export function inputOf(word, flags, [first = "-", second]) {
  const kinds = [formOf(word, flags), ...FILES[word].slice(1).map((kind) => kind.toLowerCase())];
  if (second !== undefined) {
    const [schedule, ...rest] = first === "-" ? readInput(kinds.slice(0, 1)) : [readFile(first, kinds.slice(0, 1))];
    const front = typeof schedule === "number" ? schedule : withRest(upToMark(schedule), NOTHING);
    if (second !== "-") return [front, ...rest, readFile(second, kinds.slice(1))];
    return word === "debug" ? [front, STDIN] : [front, ...readInput(kinds.slice(1))];
  }
  if (word === "debug" && first === "-") return [STDIN];
  const parts = first === "-" ? readInput(kinds) : [readFile(first, kinds)];
  const isCut = kinds[0] === "schedule" && !GOING_ON.has(word) && parts.length === 1 && typeof parts[0] !== "number";
  return isCut ? [upToMark(parts[0])] : parts;
}
