// The debugger at a terminal: its words, and the session that is held there.

import { spawnSync } from "node:child_process";
import { createInterface } from "node:readline";
import { setImmediate } from "node:timers/promises";
import { hasLines, readFile, Unreadable } from "../command/files.mjs";
import { complain, complainOfWriting, print } from "../command/streams.mjs";
import { markIn } from "../common/text.mjs";
import { colouring } from "./colours.mjs";
import { helpOf } from "./commands.mjs";
import { Debugger } from "./debugger.mjs";
import { files } from "./filing.mjs";
import { openHistory } from "./history.mjs";
import { Interruption } from "./interrupting.mjs";
import { nearest } from "../common/nearest.mjs";
import { isLong, page } from "./pager.mjs";
import { Recording, RefusedText } from "./recording.mjs";
import { shownOn } from "../common/visible.mjs";

export const USAGE = `usage: otbench debug FILE [[--port] PORT-LINES] [--sparse]
Steps through the run of a schedule's text, forth and back. With the lines that a port printed, which may stand in FILE behind a line '%%', it stops where the
port differs. --sparse: instructions without a line are not compared. Without --port the second file is PORT-LINES where it begins with a '{' or is empty, else
the program's commands.
`;

/** The usage, and the commands at the prompt. */
const HELP = `${USAGE}\n${helpOf().join("\n")}\n`;

/**
 * A session: prompts where the input is a terminal, and answers each line. Lines are edited, and the prompt stands, on the output, or on standard error where
 * that is the terminal. Ends with the first fault of the output, or null.
 * @param {Debugger} session @param {import("node:tty").ReadStream} input @param {import("node:tty").WriteStream} output @param {Interruption} interruption
 * @returns {Promise<Error | null>}
 */
async function converse(session, input, output, interruption) {
  const shown = input.isTTY ? [output, process.stderr].find(({ isTTY }) => isTTY) : undefined;
  const history = shown === undefined ? null : openHistory();
  const reader = createInterface({ input, output: shown, terminal: shown !== undefined, completer: (line) => session.complete(line), history: history?.lines });
  let fault = null;
  output.on("error", (it) => {
    fault ??= it;
    reader.close();
  });
  const colour = colouring(output);
  const say = (lines) => {
    const text = lines.map((line) => `${colour(shownOn(output, line), line === session.difference)}\n`).join("");
    if (!isLong(lines, input, output) || !page(text, input)) output.write(text);
  };
  const prompt = () => {
    reader.setPrompt(session.prompt);
    if (shown !== undefined) reader.prompt();
  };
  reader.on("SIGINT", () => {
    dropLine(reader);
    shown.write("^C\n");
    prompt();
  });
  const release = shown === undefined ? () => {} : continueWith(reader, input);
  say(session.greeting());
  prompt();
  for await (const line of reader) {
    if (fault) break;
    history?.add(line);
    if (shown !== undefined) interruption.begin();
    const said = session.perform(line);
    const typed = interruption.end();
    say(said);
    if (session.isOver) break;
    prompt();
    if (typed.length) input.unshift(typed);
  }
  release();
  reader.close();
  await setImmediate(); // a fault of the last write comes behind it
  return fault;
}

/**
 * Stops all of the job where a person asks for it (Ctrl-Z), and goes on, with the line that was begun, when the shell continues it. The terminal is the shell's
 * meanwhile, which may have set it otherwise. Answers what ends this.
 * @param {import("node:readline").Interface} reader @param {import("node:tty").ReadStream} input
 */
function continueWith(reader, input) {
  const goOn = () => {
    for (const isRaw of [false, true]) input.setRawMode(isRaw);
    reader.pause(); // the input is read again only if it was paused
    reader.prompt(true);
  };
  reader.on("SIGTSTP", () => {
    input.setRawMode(false);
    process.kill(0, "SIGTSTP");
  });
  process.on("SIGCONT", goOn);
  return () => process.removeListener("SIGCONT", goOn);
}

/** Takes out what is typed of a line: from its end to its beginning. @param {import("node:readline").Interface} reader */
function dropLine(reader) {
  for (const name of ["e", "u"]) reader.write(null, { ctrl: true, name });
}

/** Words that are not understood, and why. */
class Misunderstood extends Error {}

/* That two files of a port's lines are named. */
const twice = (one, other) => new Misunderstood(`the lines of a port are named twice: '${one}' and '${other}'`);

const isHelp = (word) => word === "-h" || word === "--help";

/** The words as { file, port, isSparse }. Behind `--` no word is an option. A second file is a port's lines where it has such. */
function wordsOf(words) {
  const asked = { file: null, port: null, isSparse: false };
  let isFile = false;
  for (let i = 0; i < words.length; i++) {
    const word = words[i];
    if (isFile || !word.startsWith("-")) {
      if (asked.file === null) asked.file = word;
      else if (!hasLines(word)) throw new Misunderstood(`unexpected argument '${word}' found; the lines of a port stand behind '--port'`);
      else if (asked.port !== null) throw twice(asked.port, word);
      else asked.port = word;
    } else if (word === "--") isFile = true;
    else if (word === "--sparse") asked.isSparse = true;
    else if (word === "--port") {
      if (i + 1 === words.length) throw new Misunderstood("a value is required for '--port' but none was supplied");
      if (words.indexOf("--port") < i) throw new Misunderstood("the argument '--port' cannot be used multiple times");
      if (asked.port !== null) throw twice(asked.port, words[i + 1]);
      asked.port = words[++i];
    } else {
      const [near] = nearest(word, ["--port", "--sparse"]);
      throw new Misunderstood(`unexpected argument '${word}' found${near ? `; a similar argument exists: '${near}'` : ""}`);
    }
  }
  if (asked.file === null) throw new Misunderstood("a schedule's file is required");
  return asked;
}

/** The schedule and the lines of a port that the words name, null where there are none. */
function read({ file, port }) {
  const all = readFile(file, ["schedule", "lines"]);
  const mark = markIn(all);
  const behind = mark ? all.subarray(mark.end) : null;
  return { schedule: mark ? all.subarray(0, mark.start) : all, port: port === null ? behind : readFile(port, ["lines"]) };
}

/** Reads the files that the words name, again and again, and opens the schedule in the editor that a person has chosen. */
class Source {
  constructor(asked, ask, isStopped) {
    Object.assign(this, { asked, ask, isStopped });
  }

  /** The run of the files as they are. A file that cannot be read is refused, too. */
  open() {
    try {
      const { schedule, port } = read(this.asked);
      return new Recording(this.ask, schedule, port, this.asked.isSparse, this.isStopped);
    } catch (fault) {
      if (!(fault instanceof Unreadable)) throw fault;
      throw new RefusedText(`otbench debug: ${fault.message}\n`);
    }
  }

  /** Opens the schedule in an editor; answers a fault in words, or null. */
  edit(input = process.stdin) {
    const editor = process.env.VISUAL || process.env.EDITOR;
    if (!editor) return "neither VISUAL nor EDITOR names an editor";
    if (!input.isTTY) return "an editor needs a terminal";
    input.setRawMode(false);
    try {
      const { status } = spawnSync("sh", ["-c", `${editor} "$1"`, "sh", this.asked.file], { stdio: "inherit" });
      return status === 0 ? null : `${editor} ended with status ${status}`;
    } finally {
      input.setRawMode(true);
    }
  }
}

/**
 * The whole command. Answers its status: 0; 1 where a file cannot be read or is refused, or the output cannot be written; 2 where words are not understood.
 * @param {string[]} words @param {import("./recording.mjs").Ask} ask
 * @param {import("node:stream").Readable} input of the commands @param {import("node:stream").Writable} output of the answers
 */
export async function debug(words, ask, input = process.stdin, output = process.stdout) {
  if (words.some(isHelp)) return print(HELP) ? 0 : 1;
  try {
    const interruption = new Interruption();
    const source = new Source(wordsOf(words), ask, () => interruption.isThere());
    const session = new Debugger(source.open(), { source, files });
    const fault = await converse(session, input, output, interruption);
    if (fault === null) return 0;
    complainOfWriting(fault);
    return 1;
  } catch (fault) {
    if (fault instanceof Misunderstood) complain(`error: ${fault.message}\n${USAGE}`);
    else if (fault instanceof RefusedText) complain(fault.message);
    else throw fault;
    return fault instanceof Misunderstood ? 2 : 1;
  }
}
