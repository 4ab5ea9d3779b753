/*
 * The functions of the package over any way to serve words and an input:
 *
 *     arguments ── call ──▶ words, input ── serve ──▶ status, output, errors ── read ──▶ a value, or an OtbenchError
 */

import { linesEndOf, readCheck, readCheckOfAll, readConform, readConformMany, readJudge, readRun, readSteps } from "./answers.mjs";
import { conformCall } from "../common/conformance.mjs";
import { check, OtbenchError } from "./errors.mjs";
import { lineOf } from "../common/numbering.mjs";
import { readVerdict } from "./outlook.mjs";
import { placeAmong, sessionOf } from "./many.mjs";
import { bytesOf, joined, markIn, textOf, withoutComments, withRest } from "../common/text.mjs";

const NOTHING = new Uint8Array(0);

/* Asks the program, and gives what it printed. */
function* printed(words, input) {
  return textOf(check(yield { words, input }).output);
}

/* The same of many sessions. The line of a fault is that of its session. */
function* printedOfMany(words, sessions) {
  const answer = yield { words, input: joined(sessions) };
  try {
    return textOf(check(answer).output);
  } catch (error) {
    if (error.line) error.line = placeAmong(sessions, error.line).line;
    throw error;
  }
}

const schedule = (given) => bytesOf(given, "the schedule");

/* What is given as a value or as its JSON, with its name. */
const VALUES = new Map([["trace", "the trace"], ["plan", "the plan"]]);

/* What `run` or `check` gave, the line of a refused instruction in it; null of an image. */
function withLine(result, text) {
  const { stopped } = result;
  return stopped ? { ...result, stopped: { ...stopped, line: text && lineOf(stopped.at, textOf(text)) } } : result;
}

/* What `conform` reads. */
const besides = (text, lines) => withRest(schedule(text), linesOf(lines));

/* The calls of all functions but `serve`: each yields what the program is asked, is given what that answers, and gives a value. */
const calls = {
  *run(given, { image = false } = {}) {
    const text = schedule(given);
    return withLine(readRun(yield* printed(image ? ["run", "--image", "--json"] : ["run", "--json"], text)), image ? null : text);
  },

  *steps(text, { documents = false } = {}) {
    return readSteps(yield* printed(documents ? ["steps", "--documents"] : ["steps"], schedule(text)));
  },

  /* A form that the program does not know is refused by it. */
  *explain(given, { form } = {}) {
    if (form === undefined) return yield* printed(["explain"], schedule(given));
    return yield* printed(["explain", `--${form}`], jsonOf(given, VALUES.get(form) ?? "the input"));
  },

  *verdict(text) {
    const unnamed = withoutComments(schedule(text));
    return readVerdict(yield* printed(["explain", "--json"], unnamed), yield* printed(["explain"], unnamed));
  },

  /* A line `%%` would end the schedule: one that has such a line is refused as `run` refuses it. */
  *conform(text, lines, { sparse = false } = {}) {
    const bytes = schedule(text);
    if (markIn(bytes)) yield* printed(["run", "--json"], bytes);
    const answer = readConform(yield* printed([...conformCall(sparse), "--json"], besides(bytes, lines)), textOf(bytes));
    return sparse ? { ...answer, ...linesEndOf(answer, [[bytes, linesOf(lines)]]) } : answer;
  },

  /* Up to the first session that the program would take for two, which has a line `%%` of its own: that one is compared alone, and does not conform. */
  *conformMany(sessions, { sparse = false } = {}) {
    const given = Array.from(sessions, ({ schedule: text, lines }) => [schedule(text), linesOf(lines)]);
    const alone = given.findIndex((parts) => parts.some(markIn));
    const among = given.slice(0, alone < 0 ? given.length : alone).map(sessionOf);
    const told = readConformMany(yield* printedOfMany([...conformCall(sparse), "--many", "--json"], among), (line) => placeAmong(among, line));
    const answer = sparse ? { ...told, ...linesEndOf(told, given.slice(0, among.length)) } : told;
    if (alone < 0 || "session" in answer) return answer;
    const [text, lines] = given[alone];
    return { ...(yield* calls.conform(text, lines, { sparse })), session: alone + 1, schedule: textOf(text) };
  },

  *check(text, { all = false } = {}) {
    const bytes = schedule(text);
    const told = yield* printed(all ? ["check", "--all", "--json"] : ["check", "--json"], bytes);
    return withLine(all ? readCheckOfAll(told) : readCheck(told), bytes);
  },

  *judge(trace) {
    return readJudge(yield* printed(["judge", "--json"], jsonOf(trace, VALUES.get("trace"))));
  },

  *assemble(text) {
    return check(yield { words: ["asm"], input: schedule(text) }).output;
  },

  *disassemble(image) {
    return yield* printed(["dis"], schedule(image));
  },

  /* Of an instruction that is refused `check` says which. */
  *complete(text) {
    const bytes = schedule(text);
    const answer = yield { words: ["complete"], input: bytes };
    const { stopped } = answer.status === 1 ? withLine(yield* stopOf(bytes), bytes) : {};
    if (stopped) throw new OtbenchError(stopped.refusal, textOf(answer.errors).trimEnd(), stopped);
    return textOf(check(answer).output);
  },

  *generate(options = {}) {
    const { signal, ...others } = options;
    return yield* printed(["generate", ...wordsOf(others)], NOTHING);
  },
};

/* Which instruction of a schedule is refused; nothing where the schedule is. */
function* stopOf(text) {
  const { output, errors } = yield { words: ["check", "--json"], input: text };
  return errors.length === 0 ? readCheck(textOf(output)) : {};
}

/* What the program is asked for the words of an answer of conform. */
const wordsOfConform = (text, lines, { sparse = false } = {}) => ({ words: conformCall(sparse), input: besides(text, lines) });

/* The options of each function beside `signal`; those of `generate` are the program's. */
const OPTIONS = { run: ["image"], steps: ["documents"], explain: ["form"], verdict: [], conform: ["sparse"], conformMany: ["sparse"], check: ["all"], judge: [], assemble: [], disassemble: [], complete: [] };

const optionsOf = (name, given) => given[name === "generate" ? 0 : name === "conform" ? 2 : 1];

/* The call of a function, whose options are the last it is given. One that it does not have is refused. */
function callOf(name, ...given) {
  const options = optionsOf(name, given);
  const own = OPTIONS[name];
  const other = own && Object.keys(options ?? {}).find((option) => option !== "signal" && !own.includes(option));
  if (name === "generate" && given[0] !== undefined && Object(given[0]) !== given[0]) throw new OtbenchError("Usage", "generate takes its options as an object, such as { instructions: 5 }");
  if (other !== undefined) throw new OtbenchError("Usage", `${name} has no option ${other}; its options: ${[...own, "signal"].join(", ")}`);
  return calls[name](...given);
}

/** A port's lines as bytes: of a text, of bytes, or of an array of texts and of values. @param {import("./otbench.mjs").PortLines} lines */
export function linesOf(lines) {
  if (!Array.isArray(lines)) return bytesOf(lines, "what the port printed");
  const texts = lines.map((line) => (typeof line === "string" ? line : JSON.stringify(line)));
  return bytesOf(texts.concat("").join("\n"), "the port's lines");
}

const isText = (given) => typeof given === "string" || given instanceof Uint8Array;

const jsonOf = (given, name) => bytesOf(isText(given) ? given : JSON.stringify(given), name);

/* The options of `generate` as its words. A name that the program does not know is refused by it. */
function wordsOf(options) {
  const given = Object.entries(options).filter(([, value]) => value !== undefined && value !== false);
  return given.map(([name, value]) => (value === true ? `--${name}` : `--${name}=${value}`));
}

/* No word of a program holds a NUL or half of a surrogate pair. */
function checkWords(words) {
  for (const word of words)
    if (word.includes("\0") || !word.isWellFormed())
      throw new OtbenchError("Usage", `${JSON.stringify(word)} holds a NUL or half of a surrogate pair`);
}

/* Gives a value, which is made when it is first looked at. */
function withText(answer, textOfIt) {
  const get = () => {
    const value = textOfIt();
    Object.defineProperty(answer, "text", { value, enumerable: true });
    return value;
  };
  return Object.defineProperty(answer, "text", { get, enumerable: true, configurable: true });
}

/**
 * All functions over one that serves.
 * @param {(words: string[], input: Uint8Array) => import("./otbench.mjs").Answer} serveBytes
 * @returns {import("./otbench.mjs").Bench}
 */
export function benchOver(serveBytes) {
  const serve = (words, input = NOTHING) => {
    checkWords(words);
    return serveBytes(words, bytesOf(input, "the input"));
  };
  const ask = ({ words, input }) => serve(words, input);
  const called = (name) => (...given) => {
    const call = callOf(name, ...given);
    let step = call.next();
    while (!step.done) step = call.next(ask(step.value));
    return step.value;
  };
  const conform = (...given) => withText(called("conform")(...given), () => textOf(ask(wordsOfConform(...given)).output));
  return { serve, ...mapped(called), conform };
}

/**
 * The same over one that serves later, and may be cancelled.
 * @param {(words: string[], input: Uint8Array, signal?: AbortSignal) => Promise<import("./otbench.mjs").Answer>} serveBytes
 * @returns {Omit<import("./worker.mjs").WorkerBench, "close">}
 */
export function laterBenchOver(serveBytes) {
  const serve = async (words, input = NOTHING, { signal } = {}) => {
    checkWords(words);
    return serveBytes(words, bytesOf(input, "the input"), signal);
  };
  const called = (name) => async (...given) => {
    const { signal } = optionsOf(name, given) ?? {};
    const call = callOf(name, ...given);
    let step = call.next();
    while (!step.done) step = call.next(await serve(step.value.words, step.value.input, { signal }));
    return step.value;
  };
  const conform = async (...given) => {
    const answer = await called("conform")(...given);
    const { words, input } = wordsOfConform(...given);
    return { ...answer, text: textOf((await serve(words, input, given[2])).output) };
  };
  return { serve, ...mapped(called), conform };
}

const mapped = (called) => Object.fromEntries(Object.keys(calls).map((name) => [name, called(name)]));
