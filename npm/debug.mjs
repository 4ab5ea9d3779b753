/* otbench/debug: the debugger of the terminal over a session, as an object. Each command is a method. */

import { serve } from "../engine/host.mjs";
import { COMMANDS } from "../terminal/commands.mjs";
import { Debugger } from "../terminal/debugger.mjs";
import { files } from "../terminal/filing.mjs";
import { Recording } from "../terminal/recording.mjs";
import { engine } from "./engine.mjs";
import { OtbenchError, check } from "./errors.mjs";
import { bytesOf, textOf } from "../common/text.mjs";

/* Commands that need a terminal. */
const OF_TERMINAL = new Set(["edit", "reload", "quit"]);

const NAMES = Object.keys(COMMANDS).filter((name) => !OF_TERMINAL.has(name));

/* What the debugger asks: the engine. A refused text is thrown as the package's error. */
function ask(words, text) {
  const input = bytesOf(text, "the schedule");
  const { status, output, errors } = check(serve(engine(), words, input));
  return { status, output: textOf(output), errors: textOf(errors) };
}

/* A word of a command: text with blanks or quotes as JSON. */
const wordOf = (value) => (typeof value === "string" && /^[^\s"]+$/.test(value) ? value : typeof value === "string" ? JSON.stringify(value) : String(value));

class Session {
  #debugger;

  constructor(recording) {
    this.#debugger = new Debugger(recording, { files });
  }

  get place() {
    return this.#debugger.place;
  }

  get end() {
    return this.#debugger.recording.end;
  }

  perform(line) {
    if (typeof line !== "string") throw new OtbenchError("Usage", "perform takes a command as a string");
    return this.#debugger.perform(line);
  }

  complete(line) {
    return this.#debugger.complete(line)[0];
  }
}

for (const name of NAMES) {
  Object.defineProperty(Session.prototype, name, {
    value(...words) {
      return this.perform([name, ...words.map(wordOf)].join(" "));
    },
  });
}

export const commands = Object.fromEntries(NAMES.map((name) => [name, { takes: COMMANDS[name].takes, does: COMMANDS[name].does }]));

export function openDebugger(schedule, options = {}) {
  const { port = null, sparse = false, ...others } = options ?? {};
  const [other] = Object.keys(others);
  if (other !== undefined) throw new OtbenchError("Usage", `openDebugger has no option ${other}; its options: port, sparse`);
  return new Session(new Recording(ask, schedule, port === null ? null : bytesOf(port, "the port's lines"), Boolean(sparse)));
}

export { OtbenchError };
