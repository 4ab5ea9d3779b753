/*
 * The command `otbench`: words, files, help and hints around a program, which is the engine of the package or one of the system.
 *
 *     words ──▶ a subcommand of this command: view, edit, debug, merge, completion, help, version
 *          └──▶ a subcommand of the program: its files are read, it runs, and hints follow on standard error
 *
 * A module that most calls do not need is read when it is wanted, so that a call of the program begins soon.
 */

import { EngineFault } from "../engine/host.mjs";
import { announce, ANSWERING_EACH, asksForHelp, FILES, hasLines, inputOf, isFile, OPTIONS, split, Unreadable } from "./files.mjs";
import { fileWord, quoted } from "./shell.mjs";
import { complain, print, STDIN } from "./streams.mjs";
import { bytesOf, joined, textOf } from "../common/text.mjs";

const [DONE, FAULT, USAGE] = [0, 1, 2];

const NOTHING = new Uint8Array(0);

/**
 * @typedef {object} Context
 * @property {import("./programs.mjs").Program} program
 * @property {string} name what the command is called, for the shell
 * @property {string} more what stands below the help
 */

const hint = (text) => complain(`otbench: ${text}\n`);

function showVersion({ program }) {
  const said = program.version ?? `${textOf(program.ask(["--version"], NOTHING).errors).trim()} (${program.about})`;
  return print(`${said}\n`) ? DONE : FAULT;
}

/* The bytes among what is read. */
const bytesIn = (parts) => joined(parts.filter((part) => typeof part !== "number"));

/* How many workers a plan has; one where it is refused, which the program says. */
function workersOf({ program }, plan) {
  const { status } = program.ask(["explain", "--plan"], plan);
  return status === DONE ? JSON.parse(textOf(plan)).workers : 1;
}

/* Whether a program without threads is to start some. */
function lacksThreads({ program }, word, parts) {
  if (program.hasThreads || word !== "threads") return false;
  const workers = workersOf({ program }, bytesIn(parts));
  if (workers > 1) hint(`this program has no threads, and the plan has ${workers} workers: give it "workers":1, or give the plan to ./otbench threads of the repository, built with the toolchain`);
  return workers > 1;
}

/* The subcommands whose hints are also by what was printed. */
const LOOKED_AT = new Set(["judge", "conform"]);

/* Says what may be meant by words that the program refuses. */
async function hintAtWords({ program, name }, words) {
  const { meant } = await import("./usage.mjs");
  meant(words, { name, ask: program.ask }).forEach(hint);
}

const CUT = Buffer.from("cut:");

/* Whether a recorded schedule may end before its logs do, which is told with each status. */
const isCut = (input) => Buffer.from(input.buffer, input.byteOffset, input.length).includes(CUT);

/* Whether a port's lines that conform may end before the schedule does, which is told, too. */
const isSparse = (word, flags) => word === "conform" && flags.includes("--sparse");

/* Runs a subcommand of the program on a file, or two; with the hints below its answer. */
async function answer(context, word, flags, files) {
  const { program, name } = context;
  announce(word, flags, files);
  const parts = inputOf(word, flags, files);
  if (lacksThreads(context, word, parts)) return FAULT;
  const [output, errors] = [[], []];
  const onWrite = LOOKED_AT.has(word) ? (bytes) => void output.push(bytes.slice()) : undefined;
  const { status, isWritten } = await program.run([word, ...flags], parts, { onWrite, onError: (bytes) => void errors.push(bytes.slice()) });
  if (!isWritten) return status;
  const input = bytesIn(parts);
  if (status === USAGE) await hintAtWords(context, [word, ...flags]);
  else if (status === FAULT ? input.length > 0 : isCut(input) || isSparse(word, flags)) {
    const { hintsOf } = await import("./hints.mjs");
    const call = { word, flags, files, name, ask: program.ask };
    hintsOf(call, status, { input, output: joined(output), errors: joined(errors) }).forEach((line) => complain(`${line}\n`));
  }
  return status;
}

/* The same of several files, each below its name. The status is the worst one. */
async function answerEach(context, word, flags, files) {
  let worst = DONE;
  for (const [i, file] of files.entries()) {
    if (!print(`${i > 0 ? "\n" : ""}==> ${file === "-" ? "standard input" : fileWord(file)} <==\n`)) return FAULT;
    try {
      worst = Math.max(worst, await answer(context, word, flags, [file]));
    } catch (fault) {
      if (!(fault instanceof Unreadable)) throw fault;
      hint(fault.message);
      worst = Math.max(worst, FAULT);
    }
  }
  return worst;
}

/* Runs a subcommand that takes files. A file too many, and what may be an unknown option's value, is refused by the program. */
function runOnFiles(context, word, words) {
  const { flags, files } = split(words);
  const isUnknown = flags.some((flag) => !OPTIONS.has(flag)) && !files.every((file) => file === "-" || isFile(file));
  if (isUnknown) return runOnWords(context, [word, ...flags, ...files]);
  const extra = files.slice(FILES[word].length);
  if (extra.length > 0 && ANSWERING_EACH.has(word)) return answerEach(context, word, flags, files);
  return extra.length > 0 ? runOnWords(context, [word, ...flags, ...extra]) : answer(context, word, flags, files);
}

/* Runs the program on words without files, with what may be meant by those that it refuses. */
async function runOnWords(context, words) {
  const { status } = await context.program.run(words, [STDIN]);
  if (status === USAGE) await hintAtWords(context, words);
  return status;
}

/* What the scripts of terminal/ ask: the program, by words and a text. */
const asker = ({ program }) => (words, text) => {
  const { status, output, errors } = program.ask(words, bytesOf(text, "the text"));
  return { status, output: textOf(output), errors: textOf(errors) };
};

/* Whether the words behind `debug` ask for the debugger at a terminal: a schedule alone, with a port's lines, or with options, which the program's `debug` does not have. */
function isDebugging(words) {
  const { flags, files } = split(words);
  return files.length > 0 && files[0] !== "-" && (files.length === 1 || flags.length > 0 || (files.length === 2 && hasLines(files[1])));
}

/* The subcommands that are not the program's; of `debug` that at a terminal. */
const SUBCOMMANDS = {
  completion: async ({ program }, words) => (await import("./completion.mjs")).completion(words, program.ask),
  debug: async (context, words) => (await import("../terminal/debugging.mjs")).debug(words, asker(context)),
  edit: async (context, words) => (await import("../terminal/editing.mjs")).edit(words, asker(context)),
  help: async (context, words) => (await import("./help.mjs")).showHelp(context, words),
  merge: async (_, words) => (await import("../recorder/merge.js")).mergeLogs(words),
  port: async ({ program }, words) => (await import("../ports/porting.mjs")).port(words, program.ask),
  view: async ({ program }, words) => (await import("./view.mjs")).view(program.ask, words),
};

const VERSION = new Set(["version", "--version", "-V", "-v"]);

function run(context, words) {
  const [word = "", ...rest] = words;
  const isOwn = word === "debug" ? isDebugging(rest) : Object.hasOwn(SUBCOMMANDS, word);
  if (asksForHelp(words) && !(word === "debug" && isOwn)) return SUBCOMMANDS.help(context, word.startsWith("-") || word === "help" ? [] : [word]);
  if (isOwn) return SUBCOMMANDS[word](context, rest);
  if (words.length === 1 && VERSION.has(word)) return showVersion(context);
  return Object.hasOwn(FILES, word) ? runOnFiles(context, word, rest) : runOnWords(context, words);
}

/**
 * Runs the command.
 * @param {string[]} words behind the command's name
 * @param {{ program: import("./programs.mjs").Program, name?: string, more?: string }} how
 * @returns {Promise<number>} the status
 */
export async function main(words, { program, name = "otbench", more = "" }) {
  try {
    return await run({ program, name: quoted(name), more }, words);
  } catch (fault) {
    if (!(fault instanceof Unreadable || fault instanceof EngineFault)) throw fault;
    hint(fault.message);
    return FAULT;
  }
}
