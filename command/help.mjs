/* Help: the program's own, on the output, and what the command adds to it. */

import { USAGE as EDIT_HELP } from "../terminal/editing.mjs";
import { USAGE as MERGE_HELP } from "../recorder/merge.js";
import { USAGE as COMPLETION_HELP } from "./completion.mjs";
import { ANSWERING_EACH, FILES, MOST } from "./files.mjs";
import { PORT_HELP } from "../ports/porthelp.mjs";
import { complain, print } from "./streams.mjs";
import { helpOn, isRefusal, similarTo } from "./usage.mjs";
import { USAGE as VIEW_HELP } from "./view.mjs";

const [DONE, FAULT, USAGE] = [0, 1, 2];

const filesOf = ([word, files]) => `  otbench ${word} ${files.map((file, i) => `[${file}]${i === 0 && ANSWERING_EACH.has(word) ? " .." : ""}`).join(" ")}\n`;
const sizes = Object.entries(MOST).map(([kind, most]) => `${kind} ${most >> 20}`).join(", ");

const ADDED = `
Files can be named in the place of standard input, '-' is standard input, and behind '--' no word is an option:
${Object.entries(FILES).map(filesOf).join("")}  otbench debug SCHEDULE [--port LINES] [--sparse]   at a terminal, forth and back
  otbench edit SCHEDULE C AT DELETED INSERTED        appends the edit with which client C changes its document so
  otbench merge LOG ..                               makes a schedule of the recorder's logs, a line '%%', and what the participants had
  otbench port [OPTIONS] -- DRIVER ..                tries a port of ot.js, whose driver is a program, over many sessions
  otbench completion bash|zsh                        prints what completes the command's words in that shell
COMMANDS and LINES stand behind the schedule and a line '%%'; other subcommands read a schedule up to that line. Of several files each is
answered by itself. 'view' prints a page for a browser with the session in it, and beside it what a port printed, its LINES.
'help', '--help' and 'version' print on the output, with status 0. Below a fault or a refusal hints follow, on standard error.
The most MiB that are read: ${sizes}.
`;

const DEBUG_ADDED = `
At a terminal 'otbench debug SCHEDULE [--port LINES]' has other commands: 'otbench debug SCHEDULE --help' lists them.
`;

const NO_THREADS = `
This program has no threads: it performs plans with "workers":1. './otbench threads' of the repository, built with the toolchain, performs all.
`;

const OWN_HELP = { view: VIEW_HELP, edit: EDIT_HELP, merge: MERGE_HELP, port: PORT_HELP, completion: COMPLETION_HELP };

/* What stands below the program's help on a subcommand; undefined: below all of it. */
function addedTo(word, { program, more }) {
  if (word === undefined) return ADDED + more;
  if (word === "debug") return DEBUG_ADDED;
  return word === "threads" && !program.hasThreads ? NO_THREADS : "";
}

/**
 * Prints the program's help, or that of one of its words. Answers the status.
 * @param {import("./command.mjs").Context} context
 * @param {string[]} words
 */
export function showHelp(context, words) {
  const { program } = context;
  const [word] = words;
  if (words.length === 1 && Object.hasOwn(OWN_HELP, word)) return print(OWN_HELP[word]) ? DONE : FAULT;
  const said = helpOn(words, program.ask);
  const added = words.length < 2 ? addedTo(word, context) : "";
  if (!isRefusal(said)) return print(said + added) ? DONE : FAULT;
  complain(said);
  if (words.length === 1) complain(`otbench: ${similarTo(word, program.ask)}\n`);
  return USAGE;
}
