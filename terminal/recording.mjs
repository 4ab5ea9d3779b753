// A run that can be looked at in every place. All that it knows comes from otbench: `steps` gives the values, `explain` the words, `conform` where a port differs; names stand in comments.

import { conformCall, isConforming, isWordy, readAnswer, wordsOf } from "../common/conformance.mjs";
import { fold, SERVER } from "../common/fold.mjs";
import { lineNamed, linesEndIn } from "../common/numbering.mjs";
import { documentAt, downAt, logLengthAt, quietAt, stateAt, upAt } from "../common/places.mjs";
import { textOf } from "../common/document.mjs";
import { bytesOf, lastLineIn, textOf as textOfBytes, withRest } from "../common/text.mjs";
import { splitInput } from "../common/input.mjs";
import { Port } from "../common/printed.mjs";
import { Differences } from "./differing.mjs";
import { Occurrences } from "./occurring.mjs";
import { outlineOf, textUpTo } from "../common/outline.mjs";
import { partsOf } from "../common/told.mjs";
import { commentsOf } from "./names.mjs";
import { beside, shortOperation, shortText } from "./values.mjs";

/**
 * @typedef {{ status: number, output: string, errors: string }} Answer
 * @typedef {(words: string[], text: string | Uint8Array) => Answer} Ask asks otbench: words and a text go in
 */

/** A text that otbench refuses, with what it says of it. */
export class RefusedText extends Error {}

/** Keys that are of a line as a whole. */
const OF_ALL = new Set(["at", "do", "client", "line", "stopped"]);

const LINK = 4; // messages of a link that are all shown

/** @typedef {{ number: number, line: number, words: string, told: string[], refused: boolean }} Instruction `told`: its paragraph of explain, in lines */

/** The instructions of a run, with what explain tells of each; a refused one comes last. */
function instructionsOf({ steps, stop }, { lines }, told) {
  const performed = [...steps.slice(1).map(({ line }) => line), ...(stop ? [stop] : [])];
  return performed.map((step, number) => ({
    number,
    line: lines[number] + 1,
    words: step.client === undefined ? step.do : `${step.do} ${step.client}`,
    told: told[number],
    refused: step === stop,
  }));
}

/** The lines of a port, those that are blank left out. */
const linesIn = (port) => splitInput(`%%\n${textOfBytes(port)}`).port ?? [];

const linesOfPort = (port) => bytesOf(port, "the port's lines");

/** A schedule's text, a line `%%` and a port's lines. */
const besides = (schedule, port) => withRest(bytesOf(schedule, "the schedule"), linesOfPort(port));

const ALIKE = { difference: null, conforms: false, showsNothing: false, linesEnd: null, unknown: [] };

/**
 * What conform says of a port: where it differs, { place, number, line, key, words } or null; else whether it conforms, whether it shows nothing, so that no value was
 * compared, which of its keys are unknown, in lines, and the place at which lines for some instructions end, where that is before the schedule's last one.
 */
function conformOf(ask, schedule, { port, isSparse }, { lines }) {
  if (port === null) return ALIKE;
  const input = besides(schedule, port);
  const { output, errors } = ask([...conformCall(isSparse), "--json"], input);
  if (errors) throw new RefusedText(errors);
  const answer = JSON.parse(output);
  const { verdict, at, key } = answer;
  const words = isWordy(answer) ? wordsOf(answer, ask(conformCall(isSparse), input).output) : [];
  const unknown = words.splice(words.length - answer.unknown.length);
  if (verdict === "differs") {
    const line = lineNamed(answer, schedule);
    return { ...ALIKE, difference: { place: at, number: lines.indexOf(line - 1), line, key: key?.split(" ")[0], words } };
  }
  const linesEnd = isSparse && verdict === "conforms" ? linesEndIn(lastLineIn(linesOfPort(port)), schedule) : null;
  return { ...ALIKE, conforms: isConforming(answer), showsNothing: verdict === "nothing compared", linesEnd, unknown };
}

/** A run, with the state at each place. Place p is the one where p instructions are performed. */
export class Recording {
  /**
   * @param {Ask} ask
   * @param {string | Uint8Array} text of a schedule; bytes that are no UTF-8 are refused
   * @param {string | Uint8Array | null} port the lines that a port printed, if there are some
   * @param {boolean} isSparse whether instructions without a line are not compared
   * @param {() => boolean} isStopped whether a person ends what is searched for
   */
  constructor(ask, text, port = null, isSparse = false, isStopped = () => false) {
    const told = ask(["explain"], text);
    if (told.errors) throw new RefusedText(told.errors);
    const schedule = typeof text === "string" ? text : textOfBytes(text);
    this.ask = ask;
    this.isStopped = isStopped;
    this.schedule = schedule;
    Object.assign(this, commentsOf(schedule)); // names and cut
    this.session = fold(ask(["steps"], schedule).output.split("\n").filter(Boolean));
    const outline = outlineOf(schedule);
    const { opening, instructions } = partsOf(told.output, this.session.length + (this.session.stop ? 1 : 0), outline.cut !== null);
    this.opening = opening;
    this.written = outline.lines.length; // instructions of the schedule, those behind a refused one too
    this.instructions = instructionsOf(this.session, outline, instructions);
    Object.assign(this, conformOf(ask, schedule, { port, isSparse }, outline)); // difference, conforms, showsNothing, linesEnd, unknown
    const lines = port === null ? null : linesIn(linesOfPort(port));
    this.hasNoLines = lines?.length === 0; // the port printed nothing
    this.port = lines && new Port(this.session, lines, null, isSparse);
    this.differences = this.port && new Differences(this.port, isStopped);
  }

  /** The instructions that change how often a text stands in the documents; those of the last text are kept. @param {string} text */
  occurrences(text) {
    if (this.lastSought?.text !== text) this.lastSought = new Occurrences(this, text);
    return this.lastSought;
  }

  /** The schedule's text up to a place; completed, with the instructions by which all that is under way there arrives. @param {number} place */
  scheduleUpTo(place, isCompleted = false) {
    const text = textUpTo(this.schedule, outlineOf(this.schedule), place);
    if (!isCompleted) return text;
    const { output, errors } = this.ask(["complete"], text);
    if (errors) throw new RefusedText(errors);
    return output;
  }

  /** Whether all documents must agree at a place, and to what, in lines. @param {number} place */
  outlook(place) {
    const text = this.scheduleUpTo(place);
    return partsOf(this.ask(["explain"], text).output, place, outlineOf(text).cut !== null).verdict;
  }

  /**
   * A document at a place as otbench shows it in a read behind that: its characters, and its spans of one author, { from, count, author }. An author is
   * { client, instruction }, or null for the start text. The last answer is kept: characters of one document are asked for one by one.
   * @param {number | "server"} who @param {number} place
   */
  authors(who, place) {
    if (this.lastRead?.who !== who || this.lastRead.place !== place) this.lastRead = { who, place, ...this.#read(who, place) };
    return this.lastRead;
  }

  #read(who, place) {
    const read = who === SERVER ? "read-server" : `read ${who}`;
    const { output, errors } = this.ask(["run", "--json"], `${this.scheduleUpTo(place)}${read}\n`);
    if (errors) throw new RefusedText(errors);
    const { document, by } = JSON.parse(output.split("\n").findLast((line) => line.startsWith('{"do":')));
    let from = 0;
    const spans = by.map(([count, client, instruction]) => {
      from += count;
      return { from: from - count, count, author: client === undefined ? null : { client, instruction } };
    });
    return { document: [...document], spans };
  }

  /**
   * The method of ot.js that performed an instruction, and what it was given: what conform says where a port has another value. Null where there is no method.
   * @param {number} number @returns {import("../common/why.mjs").Call | null}
   */
  call(number) {
    const place = number + 1;
    const { do: word } = this.session.steps[place].line;
    const key = word === "take" ? "appended" : word === "deliver" ? "applied" : "state";
    const { output, errors } = this.ask([...conformCall(true), "--json"], besides(this.scheduleUpTo(place), `{"at":${place},"${key}":0}\n`));
    if (errors) throw new RefusedText(errors);
    const { rule = null, given } = JSON.parse(output);
    return rule === null ? null : { rule, given };
  }

  /** What conform says of one value of the port's line of the instruction that leads to a place: its words. @param {number} place @param {string} key of a value that differs */
  differing(place, key) {
    const short = this.differingShort(place, key);
    if (OF_ALL.has(key)) return short;
    const [call, input] = [conformCall(true), besides(this.scheduleUpTo(place), `${JSON.stringify({ at: place, [key]: this.port.valuesIn(place)?.[key] })}\n`)];
    const answer = readAnswer(this.ask([...call, "--json"], input).output);
    const isOfValue = answer?.verdict === "differs" && answer.at === place && answer.key !== "line"; // a line with half of a surrogate pair is no JSON to it
    return isOfValue ? wordsOf(answer, this.ask(call, input).output) : short;
  }

  /** Its first three lines alone. @param {number} place @param {string} key of a value that differs */
  differingShort(place, key) {
    const { found, ours } = this.port.differencesAt(place).find((it) => it.key === key);
    const { moved } = this.session.steps[place];
    const whose = OF_ALL.has(key) ? "" : moved === SERVER ? "server " : `client ${moved} `;
    return [`differs at ${place}: ${this.instructions[place - 1].words}: ${whose}${key}`, `found ${found}`, `ot.js ${ours}`];
  }

  /** The last place. */
  get end() {
    return this.session.length;
  }

  /** The instruction that leads to a place: its line, its number and its words. @param {number} place */
  leading(place) {
    const { line, number, words } = this.instructions[place - 1];
    return `line ${line}, instruction ${number}: ${words}`;
  }

  /** The refused instruction with which the run ended, or null. */
  get refused() {
    return this.instructions[this.end] ?? null;
  }

  get clients() {
    return this.session.clients;
  }

  /**
   * A value in a place, as a text: a word, a number or JSON.
   * @param {import("./subjects.mjs").Subject} subject @param {number} place
   */
  value({ what, client }, place) {
    if (what === "server") return String(logLengthAt(this.session, place));
    if (client === null) return JSON.stringify(this.text(null, place));
    const state = stateAt(this.session, client, place);
    if (what === "doc") return state.state === "not-joined" ? "none" : JSON.stringify(this.text(client, place));
    if (what === "state") return state.state;
    return state[what] === null ? "none" : JSON.stringify(state[what]);
  }

  /** Whether the instruction that leads to a place may have changed a value. @param {import("./subjects.mjs").Subject} subject @param {number} place */
  mayChange({ what, client }, place) {
    if (client === null) return this.session.steps[place].moved === SERVER;
    return this.session.steps[place].moved === client;
  }

  /**
   * Whether the instruction that leads to a place changes a value. A document's is a list of characters, each inserted once: an `a` in the place of another `a`
   * is a change, as it is to the program's `debug`.
   * @param {import("./subjects.mjs").Subject} subject @param {number} place
   */
  isChanged(subject, place) {
    if (!this.mayChange(subject, place)) return false;
    if (subject.what !== "doc") return this.value(subject, place - 1) !== this.value(subject, place);
    const [before, after] = [place - 1, place].map((p) => documentAt(this.session, subject.client ?? SERVER, p));
    return before.length !== after.length || before.some((element, i) => element !== after[i]);
  }

  /** A document. @param {number | null} client null: the server's @param {number} place */
  text(client, place) {
    return textOf(documentAt(this.session, client ?? SERVER, place));
  }

  /** A client in one line. @param {number} client @param {number} place */
  head(client, place) {
    const { state, revision } = stateAt(this.session, client, place);
    return state === "not-joined" ? `client ${client} not-joined` : `client ${client} rev ${revision} ${state} ${shortText(this.text(client, place))}`;
  }

  /** How many operations of the server a client has received. @param {number} client @param {number} place */
  revision(client, place) {
    return stateAt(this.session, client, place).revision;
  }

  /** The message under way from a client to the server, as JSON; or none. */
  message(client, place) {
    const up = upAt(this.session, client, place);
    return up ? [JSON.stringify({ revision: up.revision, operation: up.operation })] : [];
  }

  /** What is under way to a client, in order: operations as JSON, and `ack`. */
  link(client, place, json = JSON.stringify) {
    const { from, to } = downAt(this.session, client, place);
    return this.session.log.slice(from, to).map((entry) => (entry.maker === client ? "ack" : json(entry.operation)));
  }

  /** What there is to show of a client, line by line; what is long is cut. @param {number} client @param {number} place */
  client(client, place) {
    const { outstanding, buffer } = stateAt(this.session, client, place);
    const lines = [this.head(client, place)];
    if (outstanding !== null) lines.push(`  outstanding ${shortOperation(outstanding)}`);
    if (buffer !== null) lines.push(`  buffer ${shortOperation(buffer)}`);
    const up = upAt(this.session, client, place);
    if (up) lines.push(`  to the server: ${shortOperation(up.operation)} of revision ${up.revision}`);
    const heads = this.link(client, place, shortOperation);
    const shown = heads.slice(0, heads.length > LINK ? 1 : LINK).join(", ");
    if (heads.length) lines.push(`  from the server: ${heads.length > LINK ? `${heads.length} messages, first ` : ""}${shown}`);
    return [...lines, ...this.#ofPort(client, place)];
  }

  /** What the port printed last of a participant and ot.js does not have. What is of an earlier instruction, and no value that lasts, is said to be; and that the port has no more lines. */
  #ofPort(who, place) {
    if (this.port === null) return [];
    const at = this.port.placeOf(who, place);
    const of = (key) => (this.port.isEarlier(key, at, place) ? `  (of ${this.leading(at)})` : "");
    const differences = this.#besides(at).map(({ key, said }) => `  port: ${said}${of(key)}`);
    return place > this.port.last ? [...differences, `  port: no line here; ${this.#endOfPort()}`] : differences;
  }

  /* Why the port has no line at a place behind its last one. */
  #endOfPort() {
    const { last, stopped } = this.port;
    return stopped === null ? `its lines end at place ${last}` : `it stopped: ${shortText(String(stopped.stopped))}`;
  }

  #besides(place) {
    return this.port.differencesAt(place).map(({ key, found, ours }) => ({ key, said: `${key} ${beside(found, ours)}` }));
  }

  /** What the port's line of the instruction that leads to a place has and ot.js does not, in lines. @param {number} place */
  portAt(place) {
    return this.port === null ? [] : this.#besides(place).map(({ said }) => `  port: ${said}`);
  }

  /**
   * What the port printed last of a participant, whole; of a value of an earlier instruction also which.
   * @param {number | "server"} who @param {string} key @param {number} place @returns {string[]}
   */
  printed(who, key, place) {
    const found = this.port.printedOf(who, key, place);
    const ended = place > this.port.last ? [`  the port has no line here: ${this.#endOfPort()}`] : [];
    if (found === null) return ["the port has not printed it", ...ended];
    const { at, value } = found;
    const isOther = this.port.isEarlier(key, at, place);
    return [value === null ? "none" : key === "state" && typeof value === "string" ? value : JSON.stringify(value), ...(isOther ? [`  of ${this.leading(at)}`] : []), ...ended];
  }

  /** What there is to show of the server and of the whole. @param {number} place */
  server(place) {
    const head = `server rev ${logLengthAt(this.session, place)} ${shortText(this.text(null, place))}`;
    return [head, ...this.#ofPort(SERVER, place), quietAt(this.session, place)];
  }
}
