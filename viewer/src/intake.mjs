// What comes in, by file, paste or link: it is found out what it is, and becomes a session, a port's lines beside one, or a trace
// that is judged. All of it is data.

import { readEvents } from "../../recorder/logs.js";
import { merge } from "../../recorder/merging.js";
import { brief, seen } from "../../common/characters.mjs";
import { splitInput, trimmed } from "../../common/input.mjs";
import { kindOf, scheduleOf, splitSchedule, textOfSchedule } from "./reader.mjs";
import { verdictOf } from "./trace.mjs";

const text = (bytes) => new TextDecoder().decode(bytes);

/* A fault and the words below it as one line. */
const lineOf = (errors) => errors.trim().split(/\n */).join(": ");

/* What is wrong with an input, as `explain` says it: where the fault is, what stands there and what is wanted. It has no words where memory runs out. */
export async function faultOf(bench, form, input, errors) {
  const { errors: told } = await bench.ask(["explain", `--${form}`], input);
  return lineOf(told || errors);
}

/* Whether a schedule that lines have is the front of a text's. */
function isFrontOf({ instructions }, state) {
  if (instructions.length === 0 || instructions.length > state.outline.lines.length) return false;
  const lines = state.text.split("\n");
  return instructions.every((instruction, i) => sameInstruction(trimmed(lines[state.outline.lines[i]]), instruction));
}

const sameInstruction = (line, instruction) => line.replace(/[ \t]+/g, " ") === instruction || line.replace(/[ \t]/g, "") === instruction.replace(/[ \t]/g, "");

const say = (bench, notice) => bench.dispatch({ do: "notice", notice });

/* A file's name in so few characters that what is said of the file is seen. */
const called = (name) => brief(seen(name), 80) || "This";

/** The most bytes of a file that the page takes. */
const MOST = 1 << 28;

/**
 * What a file has, { name, bytes }; { fault } where it cannot be read, or has too much.
 * @param {File} file
 */
export async function readWhole(file) {
  if (file.size > MOST) return { fault: `${called(file.name)} has more than ${MOST.toLocaleString("en")} bytes, and is not opened.` };
  try {
    return { name: file.name, bytes: new Uint8Array(await file.arrayBuffer()) };
  } catch {
    return { fault: `${called(file.name)} cannot be read: it is a folder, or the browser may not read it.` };
  }
}

/* The recorder's logs of one session, as its schedule with the participants' own lines beside it. */
function takeLogs(bench, logs) {
  try {
    const { schedule, lines, notes } = merge(logs.flatMap(({ text: log, name }) => readEvents(log, called(name))));
    const title = logs.length > 1 ? `${logs.length} logs` : logs[0].name;
    bench.dispatch({ do: "open", text: `${schedule.join("\n")}\n`, port: lines, title });
    if (notes.length) say(bench, `Of the logs: ${notes.join("; ")}.`);
  } catch (fault) {
    say(bench, `The recorder's logs make no session: ${fault.message}. Drop the logs of all its participants together.`);
  }
}

const TAKERS = {
  bad: (bench, { reason }, bytes, name) => say(bench, `${called(name)} cannot be opened: ${reason}.`),

  log: (bench, { text: log }, bytes, name) => takeLogs(bench, [{ text: log, name }]),

  async other(bench, { text: input }, bytes, name) {
    const { errors } = await bench.ask(["explain"], input);
    say(bench, `${called(name)} is no schedule: ${lineOf(errors)}.`);
  },

  async image(bench, kind, bytes, name) {
    const { status, output, errors } = await bench.ask(["dis"], bytes);
    if (status) say(bench, `${called(name)} is no image of a schedule: ${await faultOf(bench, "image", bytes, errors)}.`);
    else bench.dispatch({ do: "open", text: text(output), title: name });
  },

  schedule(bench, { text: input }, bytes, name) {
    const { schedule, port } = splitSchedule(input);
    bench.dispatch({ do: "open", text: schedule, port, title: name });
  },

  async plan(bench, { text: input }, bytes, name) {
    const plan = JSON.stringify({ ...JSON.parse(input), workers: 1 }); // a page has one thread
    const { status, output, errors } = await bench.ask(["threads"], plan);
    if (status) say(bench, `The plan ${called(name)} is not carried out: ${await faultOf(bench, "plan", plan, errors)}.`);
    else bench.dispatch({ do: "open", text: text(output), title: name });
  },

  async trace(bench, { text: input }, bytes, name) {
    const { output, errors } = await bench.ask(["explain", "--trace"], input);
    if (output.length === 0) return void say(bench, `The trace ${called(name)} is not judged: ${lineOf(errors)}.`);
    const judged = await bench.ask(["judge", "--json"], input);
    return { trace: JSON.parse(input), verdict: verdictOf(JSON.parse(text(judged.output)), text(output)) };
  },

  lines(bench, { text: input }, bytes, name) {
    const { steps, port } = splitInput(input);
    const told = scheduleOf(steps);
    if (!told || isFrontOf(told, bench.state)) return bench.dispatch({ do: "compare", port: port ?? steps });
    bench.dispatch({ do: "open", text: textOfSchedule(told), port: port ?? steps, title: name });
    return undefined;
  },
};

/**
 * Takes a file or a paste in.
 * @param {import("./bench.mjs").Bench} bench one with an engine
 * @param {Uint8Array} bytes
 * @returns {Promise<{ trace: object, verdict: object } | undefined>} a judged trace, where it is one
 */
export async function takeIn(bench, bytes, name = "") {
  await bench.settled();
  const kind = kindOf(bytes);
  try {
    return await TAKERS[kind.kind](bench, kind, bytes, name);
  } catch (fault) {
    say(bench, `${called(name)} cannot be opened: ${fault.message}.`);
    return undefined;
  }
}

/**
 * Takes several files in: the recorder's logs of one session, or a schedule and a port's lines.
 * @param {{ bytes: Uint8Array, name: string }[]} files
 */
export async function takeAll(bench, files) {
  await bench.settled();
  const kinds = files.map(({ bytes, name }) => ({ ...kindOf(bytes), name }));
  const of = (kind) => kinds.filter((it) => it.kind === kind);
  const [[schedule], [lines]] = [of("schedule"), of("lines")];
  if (of("log").length === kinds.length) takeLogs(bench, kinds);
  else if (kinds.length === 2 && schedule && lines)
    bench.dispatch({ do: "open", text: splitSchedule(schedule.text).schedule, port: splitInput(lines.text).steps, title: schedule.name });
  else say(bench, "Of several files the page takes the recorder's logs of one session, or a schedule and a port's lines.");
}
