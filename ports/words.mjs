/* The words of `otbench port`, and what each takes: others are refused before anything is tried. */

import fs from "node:fs";
import os from "node:os";
import path from "node:path";
import { nearest } from "../common/nearest.mjs";
import { optionOf } from "./options.mjs";

/** What is not understood, or cannot be tried, in words. */
export class PortFault extends Error {}

const whole = (least, most) => ({ takes: `a whole number from ${least} to ${most.toLocaleString("en")}`, has: (value) => Number.isInteger(value) && value >= least && value <= most });

const FLAGS = { "--utf16": "utf16", "--keep-driver": "keep", "--open": "open", "--all": "all", "--tap": "tap", "--no-corpus": "noCorpus", "--help": "help", "-h": "help" };

/* The options with a number; where `conforms` has the same option it is checked in the same way. */
const NUMBERS = {
  "--every": "every",
  "--sessions": "sessions",
  "--seed": "seed",
  "--clients": "clients",
  "--present": "present",
  "--instructions": "instructions",
  "--seconds": "seconds",
  "--reduce-seconds": "reduceSeconds",
  "--jobs": "jobs",
  "--most-bytes": "mostBytes",
};
const OWN = { jobs: whole(1, 1024), mostBytes: whole(1, 2 ** 31) };

const TEXTS = { "--start": "start", "--session": "session", "--known": "known", "--need": "need", "--save-to": "saveTo", "--junit": "junit", "--lines": "lines" };

const ALL_WORDS = [FLAGS, NUMBERS, TEXTS].flatMap(Object.keys);

/* Throws where an option does not take a value. */
function checked(word, name, value, shown) {
  const { takes, has } = OWN[name] ?? optionOf(name);
  if (!has(value)) throw new PortFault(`${word} is ${shown}; it takes ${takes}`);
  return value;
}

/* A file that can be written, or made: a session that was found is not to be lost at the end. */
function toWrite(word, file) {
  const folder = path.dirname(file);
  const isThere = fs.existsSync(file);
  if (!fs.existsSync(folder)) throw new PortFault(`${word} is ${file}; there is no folder ${folder}`);
  if (isThere && fs.statSync(file).isDirectory()) throw new PortFault(`${word} is ${file}; that is a folder`);
  try {
    fs.accessSync(isThere ? file : folder, fs.constants.W_OK);
  } catch {
    throw new PortFault(`${word} is ${file}; it may not be written`);
  }
  return file;
}

function toRead(word, file) {
  if (file !== "-" && !fs.existsSync(file)) throw new PortFault(`${word} is ${file}; it is not there`);
  return file;
}

function textOption(word, value) {
  const name = TEXTS[word];
  if (word === "--need") return checked(word, name, value.split(",").filter(Boolean), value);
  if (word === "--start") return checked(word, name, value, value);
  if (word === "--save-to" || word === "--junit") return toWrite(word, value);
  return toRead(word, value);
}

function unknown(word) {
  const [like] = nearest(word.split("=")[0], ALL_WORDS);
  return new PortFault(`unexpected argument '${word}'${like ? `: is it ${like}?` : ""}; otbench port --help lists the options`);
}

/* Puts an option with a value among the others. */
function withValue(options, word, value) {
  if (value === undefined) throw new PortFault(`${word} takes a value; otbench port --help says which`);
  if (Object.hasOwn(NUMBERS, word)) {
    const number = /^(?:\d+(?:\.\d+)?|\.\d+)$/.test(value) ? Number(value) : NaN;
    options[NUMBERS[word]] = checked(word, NUMBERS[word], number, value);
  } else if (word === "--session") options.session = [...(options.session ?? []), textOption(word, value)];
  else options[TEXTS[word]] = textOption(word, value);
}

/* Why a command cannot be run, or null. */
function faultOf(name) {
  const isProgram = (file) => fs.existsSync(file) && fs.statSync(file).isFile() && isExecutable(file);
  const folders = (process.env.PATH ?? "").split(path.delimiter);
  const endings = process.platform === "win32" ? ["", ...(process.env.PATHEXT ?? "").split(";")] : [""];
  const places = /[\\/]/.test(name) ? [name] : folders.map((folder) => path.join(folder || ".", name));
  if (places.some((place) => endings.some((ending) => isProgram(place + ending)))) return null;
  if (!fs.existsSync(name)) return "is not there";
  return fs.statSync(name).isDirectory() ? "is a folder, and no program" : "is no program: it may not be executed";
}

function isExecutable(file) {
  try {
    fs.accessSync(file, fs.constants.X_OK);
    return true;
  } catch {
    return false;
  }
}

function commandOf(words) {
  if (words.length === 0) throw new PortFault("which command is the driver? otbench port [options] -- my-driver ..");
  const fault = faultOf(words[0]);
  if (fault) throw new PortFault(`the driver ${words[0]} ${fault}`);
  return words;
}

/* What of the options belongs to the driver, to try it again. */
const againOf = ({ utf16, keep, seconds }) => [...(utf16 ? ["--utf16"] : []), ...(keep ? ["--keep-driver"] : []), ...(seconds === undefined ? [] : ["--seconds", String(seconds)])];

/**
 * The options and the driver's command.
 * @param {string[]} words
 */
export function portWords(words) {
  const options = { keep: false, mostBytes: 1 << 24, jobs: os.availableParallelism() };
  let at = 0;
  for (; at < words.length && words[at].startsWith("-") && words[at] !== "--"; at++) {
    const [word] = words[at].split("=", 1);
    const isFlag = Object.hasOwn(FLAGS, word);
    if (isFlag && word === words[at]) options[FLAGS[word]] = true;
    else if (isFlag || !(Object.hasOwn(NUMBERS, word) || Object.hasOwn(TEXTS, word))) throw unknown(words[at]);
    else withValue(options, word, word === words[at] ? words[++at] : words[at].slice(word.length + 1));
  }
  if (options.help) return { options, command: [] };
  if (options.noCorpus) options.corpus = false;
  const command = commandOf(words.slice(words[at] === "--" ? at + 1 : at));
  return { options: { ...options, again: againOf(options), words: ALL_WORDS }, command };
}
