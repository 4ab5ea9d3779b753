// The debugger without its terminal: a place in a recording, and what stops there; each command answers lines.

import { SERVER } from "../common/fold.mjs";
import { documentAt } from "../common/places.mjs";
import { authorsOf, differenceOf, hasDocument, whoIs } from "./authors.mjs";
import { COMMANDS, commandOf, Complaint, helpOf, Interrupted, MOST, takenBy, wordsIn } from "./commands.mjs";
import { MADE, makingOf } from "./making.mjs";
import { INSTRUCTIONS, matching } from "./matching.mjs";
import { named } from "./names.mjs";
import { nearest } from "../common/nearest.mjs";
import { linesEndTold } from "../common/numbering.mjs";
import { RefusedText } from "./recording.mjs";
import { Stops } from "./stops.mjs";
import { clientOf, memberOf, subjectOf, textOf, titleOf, WATCHED } from "./subjects.mjs";
import { shortLine, shortOperation, shortVerdict, shortWords } from "./values.mjs";
import { walkLines, walksOf } from "../common/walk.mjs";
import { reasonsOf } from "../common/why.mjs";

const AROUND = 4; // how many instructions `list` shows before and behind the place
const PIECES = 40; // of a document that `blame` shows
const MANY = 16; // clients that `show` shows with all that they have

const WHOLE = ["print", "source", "blame", "diff"]; // what these show is not cut once more
const PRINTED = [...WATCHED, "message", "link"];
const PORT = { doc: "document", state: "state", outstanding: "outstanding", buffer: "buffer", revision: "revision", message: "message", sent: "sent", edit: "edit", applied: "applied", appended: "appended" };

/** Whether a word is the beginning of another. */
const isBegun = (word, whole) => word !== undefined && whole.startsWith(word);

/** How often a text stands in two documents; null where that is the same. */
function countsOf(text, ...documents) {
  const [before, after] = documents.map((document) => document.split(text).length - 1);
  return before === after ? null : [before, after];
}

/** @typedef {{ read: (file: string) => string, write: (file: string, text: string) => void }} Files a file that is there is not written; faults are complaints */

export class Debugger {
  /**
   * @param {import("./recording.mjs").Recording} recording
   * @param {object} [around]
   * @param {{ open: () => import("./recording.mjs").Recording, edit: () => string | null } | null} [around.source] reads the recording's files again; opens the schedule in an editor
   * @param {Files | null} [around.files] those of `source`, `save` and `export`
   * @param {number} [around.place] where it begins
   */
  constructor(recording, { source = null, files = null, place = 0 } = {}) {
    this.recording = recording;
    this.source = source;
    this.files = files;
    this.stops = new Stops(recording);
    this.marks = new Map();
    this.jumps = []; // the places from which the moves began, and the breaks, watches and displays that were removed
    this.place = 0;
    this.last = null; // the number of the instruction that was performed or undone last
    this.isOver = false;
    this.isSourcing = false;
    this.repeated = "";
    this.#moveTo(place);
  }

  get prompt() {
    return `(${this.place}/${this.recording.end}) `;
  }

  /** The first line of what is said where the port differs, as it is answered; or null. */
  get difference() {
    const { difference, names } = this.recording;
    return difference && named(shortLine(difference.words[0]), names);
  }

  /** What stands above the first prompt. */
  greeting() {
    const { opening, difference, conforms, hasNoLines, showsNothing, linesEnd, schedule, unknown, cut } = this.recording;
    const ends = cut === null ? [] : [`the schedule ends before its logs: ${cut}`];
    const said = [...(hasNoLines ? ["the port's lines are empty: the port printed nothing"] : []), ...(difference ? this.#tellDifference(difference) : [])];
    const early = linesEnd === null ? null : linesEndTold(linesEnd, schedule);
    if (conforms) said.push(`the port conforms${early === null ? "" : `; its ${early}`}`);
    else if (early !== null) said.push(`the port's ${early}`);
    if (showsNothing) said.push("the port's lines have no value that can be compared");
    return [shortLine(opening), ...ends, ...said, ...unknown.map(shortLine), "help lists the commands"];
  }

  /** That the port differs, and in which line; at the first place, to which no command goes on, with conform's answer. */
  #tellDifference({ place, line, words }) {
    const where = `the port's first difference is at place ${place}${line === null ? "" : `, line ${line}`}`;
    return place === 0 ? [where, ...shortVerdict(words).map((it) => named(it, this.recording.names))] : [`${where}: run stops there`];
  }

  /** Goes to a place that was chosen in another way than by a command; `undo` goes back from it. @param {number} place */
  goTo(place) {
    if (place === this.place) return;
    this.jumps.push(this.place);
    this.#moveTo(place);
  }

  /**
   * Goes on in another recording. The place, at most its end, and breaks, watches and marks stay as far as they are there.
   * @param {import("./recording.mjs").Recording} recording @returns {string[]} which of them are not
   */
  goOnIn(recording) {
    const kept = this.stops.all;
    this.recording = recording;
    this.stops = new Stops(recording);
    this.jumps = [];
    this.last = null;
    this.place = Math.min(this.place, recording.end);
    for (const [name, place] of this.marks) if (place > recording.end) this.marks.delete(name);
    const said = kept.flatMap(({ command }) => this.#set(command));
    this.#moveTo(this.place);
    return said;
  }

  /** Performs a line and answers lines, with the clients' names. @param {string} line @returns {string[]} */
  perform(line) {
    try {
      return this.#perform(line).map((answer) => named(answer, this.recording.names));
    } catch (fault) {
      if (!(fault instanceof Complaint)) throw fault;
      return [shortWords(fault.message)];
    }
  }

  /** The same without names; a complaint ends with what the command takes. */
  #perform(line) {
    const words = wordsIn(line);
    if (!words.length) return this.repeated ? this.#perform(this.repeated) : [];
    this.repeated = line;
    const { name, fault } = commandOf(words[0]);
    if (fault !== undefined) throw new Complaint(fault);
    const before = this.place;
    try {
      const [, ...given] = words;
      const { most } = COMMANDS[name];
      if (given.length > most) throw new Complaint(`${given[most]} is a word too many`);
      const answer = this[`_${name}`](given);
      if (this.place !== before && !["undo", "source"].includes(name)) this.jumps.push(before); // the moves of a file are its lines'
      const said = this.place === before ? answer : [...answer, ...this.stops.displayed(this.place)];
      return WHOLE.includes(name) ? said : said.map(shortLine);
    } catch (complaint) {
      if (!(complaint instanceof Complaint) || complaint instanceof Interrupted) throw complaint;
      throw new Complaint(`${complaint.message}; ${takenBy(name)}`);
    }
  }

  /** What a line that was begun may go on with: [the words, what they complete]. */
  complete(line) {
    const words = line.trimStart().split(/\s+/);
    const begun = words.at(-1);
    const name = words.length > 1 ? commandOf(words[0]).name : undefined;
    const all = name === undefined ? (words.length > 1 ? [] : Object.keys(COMMANDS)) : this.#wordsBehind(name, words.length - 1);
    return [all.filter((word) => word.startsWith(begun)), begun];
  }

  #wordsBehind(command, count) {
    const clients = Array.from({ length: this.recording.clients }, (_, client) => String(client));
    if (command === "watch" || command === "display") return count === 1 ? [...WATCHED, "server"] : [...clients, "server"];
    if (command === "why") return count < 3 ? ["walk"] : [];
    if (command === "next" || command === "rnext") return this.recording.port ? ["difference"] : [];
    if (command === "print") return this.#printable(count, clients);
    if (["show", "who", "blame"].includes(command)) return [...clients, "server"];
    if (command === "diff") return count === 1 ? ["doc"] : [...clients, "server"];
    if (command === "help") return Object.keys(COMMANDS);
    if (command === "info") return count === 1 ? ["breaks", ...MADE] : clients;
    if (command === "find" || command === "rfind") return count === 1 && this.recording.port ? ["port"] : [];
    if (command === "until" || command === "runtil") return count === 1 ? INSTRUCTIONS : clients;
    if (command === "break") return count === 1 ? ["line", "if", ...INSTRUCTIONS] : ["if", "time", "contains", "is", "not", ...WATCHED, ...clients];
    return command === "goto" ? ["end", ...this.marks.keys()] : [];
  }

  #printable(count, clients) {
    const isBeside = this.recording.port !== null;
    if (count === 1) return [...PRINTED, "instruction", "difference", ...(isBeside ? ["port"] : [])];
    return [...(isBeside && count === 2 ? Object.keys(PORT) : []), ...clients, "server"];
  }

  _step([word]) {
    return this.#moveTo(this.place + this.#count(word));
  }

  _back([word]) {
    return this.#moveTo(this.place - this.#count(word));
  }

  _goto([word]) {
    if (word === undefined) throw new Complaint("a place is missing");
    if (this.marks.has(word)) return this.#moveTo(this.marks.get(word));
    return this.#moveTo(word === "end" ? this.recording.end : this.#placeOf(word));
  }

  _mark([name]) {
    if (name === undefined) return this.marks.size ? [...this.marks].map(([mark, place]) => `${mark} at place ${place}`) : ["no marks"];
    if (name === "end") throw new Complaint("end is the last place already: goto end goes there");
    if (!/^\p{L}[\p{L}\p{N}_-]*$/u.test(name)) throw new Complaint(`${name} is no name: it begins with a letter, and has letters, digits, - and _`);
    this.marks.set(name, this.place);
    return [`${name} at place ${this.place}`];
  }

  _undo() {
    const last = this.jumps.pop();
    if (last === undefined) return ["no move to undo"];
    if (typeof last === "number") return this.#moveTo(last);
    this.stops.bringBack(last);
    return this.stops.list(this.place);
  }

  /** Keeps what was removed, so that `undo` brings it back. */
  #gone(removed) {
    if (removed.length) this.jumps.push(removed);
    return removed;
  }

  _next([word]) {
    if (isBegun(word, "difference")) return this.#nextDifference();
    let count = this.#count(word, 1);
    if (this.last === null) {
      const said = this.#moveTo(1);
      if (this.last === null || --count === 0) return said;
    }
    const { client } = this.#instructionAt(this.last);
    for (let number = this.place; number < this.recording.end; number++) if (this.#instructionAt(number).client === client && --count === 0) return this.#moveTo(number + 1);
    return this.#noneOf(client, "further");
  }

  _rnext([word]) {
    if (isBegun(word, "difference")) return this.#lastDifference();
    let count = this.#count(word, 1);
    if (this.last === null) return [this.recording.opening];
    const { client } = this.#instructionAt(this.last);
    for (let number = this.place - 1; number >= 0; number--) if (this.#instructionAt(number).client === client && --count === 0) return this.#moveTo(number);
    return this.#noneOf(client, "earlier");
  }

  /** Goes on to behind the next instruction in whose line the port differs in another way than before. */
  #nextDifference() {
    const { difference } = this.recording;
    const found = this.#differences().after(this.place);
    if (found === null) return this.#interrupted();
    const at = Math.min(found ?? Infinity, difference !== null && difference.place > this.place ? difference.place : Infinity);
    return at <= this.recording.end ? [...this.#moveTo(at), ...this.#differenceAt(at)] : ["the port has no further difference"];
  }

  /** Goes back to before the last such instruction. */
  #lastDifference() {
    const { difference } = this.recording;
    const found = this.#differences().upTo(this.place);
    if (found === null) return this.#interrupted();
    const first = difference !== null && difference.number >= 0 && difference.number < this.place ? difference.number + 1 : 0;
    const at = Math.max(found ?? 0, first);
    return at > 0 ? [...this.#moveTo(at - 1), ...this.#differenceAt(at)] : ["the port has no earlier difference"];
  }

  #differences() {
    if (this.recording.port === null) throw new Complaint("there are no lines of a port");
    return this.recording.differences;
  }

  /** What the port's line of the instruction that leads to a place differs in: conform's answer, and what else is new in it, short. */
  #differenceAt(place, cut = shortVerdict) {
    const { recording } = this;
    const first = recording.difference?.place === place ? recording.difference : null;
    const all = recording.port.differencesAt(place).map(({ key }) => key);
    const fresh = recording.differences.keysAt(place);
    const named = first === null ? (fresh[0] ?? all[0]) : first.key;
    const words = first === null ? recording.differing(place, named) : first.words;
    const others = all.filter((key) => key !== named);
    const isFresh = (key) => fresh.length === 0 || fresh.includes(key);
    const same = others.filter((key) => !isFresh(key));
    return [...cut(words), ...others.filter(isFresh).flatMap((key) => cut(recording.differingShort(place, key))), ...(same.length ? [`differs as before: ${same.join(", ")}`] : [])];
  }

  /** What is said of a search that a person has ended. */
  #interrupted() {
    return ["interrupted; the place is as it was"];
  }

  #noneOf(client, which) {
    const where = this.#whereIs(this.recording.instructions[this.last], this.last >= this.place);
    return [client === undefined ? "read-server has no client" : `no ${which} instruction of client ${client}`, ...where];
  }

  _until(words) {
    const isWanted = this.#wanted(words);
    for (let p = this.place + 1; p <= this.recording.end; p++) {
      if (this.recording.isStopped()) return this.#interrupted();
      if (isWanted(p)) return this.#moveTo(p);
    }
    return [`no further instruction begins with ${words.join(" ")}${this.#meant(words[0])}`];
  }

  _runtil(words) {
    const isWanted = this.#wanted(words);
    for (let p = this.place; p > 0; p--) {
      if (this.recording.isStopped()) return this.#interrupted();
      if (isWanted(p)) return this.#moveTo(p - 1);
    }
    return [`no earlier instruction begins with ${words.join(" ")}${this.#meant(words[0])}`];
  }

  #wanted(words) {
    if (!words.length) throw new Complaint("the first words of an instruction are missing");
    return matching(words, this.recording);
  }

  #meant(word) {
    const near = nearest(word, INSTRUCTIONS);
    return near.includes(word) || !near.length ? "" : `; nearest: ${near.join(", ")}`;
  }

  _run() {
    if (this.place === this.recording.end) return this.#ending();
    for (let p = this.place + 1; p <= this.recording.end; p++) {
      if (this.recording.isStopped()) return this.#interrupted();
      const stops = [...this.stops.changesAt(p), ...this.stops.breaksAt(p), ...this.#differenceIf((it) => it.place === p)];
      if (stops.length) return [...this.#moveTo(p), ...stops];
    }
    return this.#moveTo(this.recording.end);
  }

  _continue() {
    return this._run();
  }

  _rrun() {
    for (let p = this.place - 1; p >= 0; p--) {
      if (this.recording.isStopped()) return this.#interrupted();
      const stops = [...this.stops.changesAt(p + 1), ...this.stops.breaksAt(p), ...this.#differenceIf((it) => it.number === p)];
      if (stops.length) return [...this.#moveTo(p), ...stops];
    }
    return this.#moveTo(0);
  }

  _break(words) {
    if (!words.length) return this._info([]);
    return this.stops.addBreak(words, (word) => this.#placeOf(word, this.recording.written), (word) => this.#placeOfLine(word));
  }

  _watch(words) {
    return this.#look("watch", "watching", words);
  }

  _unwatch() {
    this.#gone(this.stops.removeWatches());
    return ["no watches"];
  }

  _display(words) {
    if (!words.length) return this.stops.displayed(this.place);
    return [...this.#look("display", "displaying", words), this.stops.displayed(this.place).at(-1)];
  }

  #look(kind, doing, words) {
    const subject = subjectOf(words, this.recording.clients);
    const isThere = this.stops.addLook(kind, subject);
    const { what, client } = subject;
    const told = what === "server" ? "the server's revision" : `${what} of ${client === null ? "the server" : `client ${client}`}`;
    return [`${isThere ? "already " : ""}${doing} ${told}`];
  }

  _info([word = "breaks", client]) {
    const what = (client === undefined ? ["breaks", ...MADE] : [...MADE, "breaks"]).find((name) => name.startsWith(word));
    if (what === undefined) throw new Complaint(`${word} is not known`);
    if (what !== "breaks") return makingOf(this.recording, what, clientOf(client, this.recording.clients), this.place);
    if (client !== undefined) throw new Complaint(`${client} is a word too many`);
    const lines = this.stops.list(this.place);
    return lines.length ? lines : ["no breaks, no watches"];
  }

  _delete([word]) {
    if (word === undefined) throw new Complaint("a number is missing");
    const [{ command }] = this.#gone(this.stops.remove(this.#count(word)));
    return [`no ${command} any more`];
  }

  _clear([word]) {
    const place = word === undefined ? null : this.#placeOf(word, this.recording.written);
    const { length } = this.#gone(this.stops.clear(place));
    if (place === null) return [`no breaks, no watches${length ? `; undo brings back ${length === 1 ? "the one" : `the ${length}`}` : ""}`];
    return [length ? `no break at place ${place} any more` : `there was no break at place ${place}`];
  }

  _who([who, word]) {
    const member = memberOf(who, this.recording.clients);
    if (word === undefined) throw new Complaint("the character's number is missing");
    const { length } = this.#documentOf(member);
    if (!/^\d{1,9}$/.test(word) || Number(word) >= length) throw new Complaint(length === 0 ? "the document is empty" : `${word} is no character of the document: they are 0 to ${length - 1}`);
    return this.#byReading(() => whoIs(this.recording, member, Number(word), this.place));
  }

  _blame([who, first, second]) {
    const member = memberOf(who, this.recording.clients);
    const { length } = this.#documentOf(member);
    if (length === 0) return ["the document is empty"];
    if (first === undefined) return this.#byReading(() => this.#firstOf(authorsOf(this.recording, member, this.place), who));
    if (second === undefined) throw new Complaint("the number behind the last character is missing");
    const [from, to] = [this.#count(first), this.#count(second)];
    if (from >= to || to > length) throw new Complaint(`${from} to ${to} is no part of the document, which has ${length} characters`);
    return this.#byReading(() => authorsOf(this.recording, member, this.place, from, to));
  }

  /** The first ones of many pieces, and how many more there are. */
  #firstOf(pieces, who) {
    if (pieces.length <= PIECES) return pieces;
    return [...pieces.slice(0, PIECES), `.. ${pieces.length - PIECES} more of ${pieces.length} pieces; blame ${who} FROM TO shows those of a part`];
  }

  /** What otbench says by a read behind the place. A schedule that is as long as one may be has no room for it. */
  #byReading(answer) {
    try {
      return answer();
    } catch (fault) {
      if (!(fault instanceof RefusedText)) throw fault;
      throw new Complaint(`authors are those that a read behind the place shows, and it is refused: ${fault.message.trimEnd()}`);
    }
  }

  #documentOf(member, place = this.place) {
    if (!hasDocument(this.recording, member, place)) throw new Complaint(`client ${member} has not joined`);
    return documentAt(this.recording.session, member, place);
  }

  _find(words) {
    return this.#find(words, 1);
  }

  _rfind(words) {
    return this.#find(words, -1);
  }

  /** Goes on, or back, over the next instruction by which a document has a text more or less often: one of ot.js, or one that the port printed. */
  #find(words, direction) {
    const isOfPort = words.length > 1 && words[0] === "port";
    if (words.length > 1 && !isOfPort) throw new Complaint(`${words[1]} is a word too many`);
    if (words.length === 0) throw new Complaint("a text is missing");
    const text = textOf(words.at(-1));
    if (text === "") throw new Complaint("the text is empty");
    const whose = this.recording.port === null ? "" : isOfPort ? " of the port" : " of ot.js";
    const found = isOfPort ? this.#findPrinted(text, direction) : this.#findOurs(text, direction);
    if (found === null) return this.#interrupted();
    if (found === undefined) return [`no ${direction > 0 ? "further" : "earlier"} instruction changes how often a document${whose} has ${JSON.stringify(text)}`];
    const { at, who, counts } = found;
    const [before, after] = counts.map((count) => (count === 0 ? "nowhere" : count === 1 ? "once" : `${count} times`));
    const title = titleOf({ what: "doc", client: who === SERVER ? null : who });
    return [...this.#moveTo(direction > 0 ? at : at - 1), `${title}${whose}: ${JSON.stringify(text)} ${before} -> ${after}`];
  }

  /** The documents of ot.js are those that the lines of `steps` lead to: what reads show. Null where a person has ended the search. */
  #findOurs(text, direction) {
    const occurrences = this.recording.occurrences(text);
    const at = direction > 0 ? occurrences.after(this.place) : occurrences.upTo(this.place);
    return at ? { at, ...occurrences.at(at) } : at;
  }

  /** A document of the port is what it printed last of a participant. Null where a person has ended the search. */
  #findPrinted(text, direction) {
    const { port } = this.recording;
    if (port === null) throw new Complaint("there are no lines of a port");
    const { documents } = port;
    if (documents.length === 0) throw new Complaint("the port's lines have no document");
    const ahead = direction > 0 ? documents.filter(({ at }) => at > this.place) : documents.filter(({ at }) => at <= this.place).reverse();
    for (const { at, who, before, after } of ahead) {
      if (this.recording.isStopped()) return null;
      const counts = countsOf(text, before, after);
      if (counts !== null) return { at, who, counts };
    }
    return undefined;
  }

  _diff([first, second, third]) {
    if (first === "doc") return differenceOf(...[second, third].map((who) => this.#documentOf(memberOf(who, this.recording.clients))));
    if (second === undefined) throw new Complaint("two places are missing, or doc and two documents");
    const [from, to] = [this.#placeOf(first), this.#placeOf(second)];
    const all = [...Array.from({ length: this.recording.clients }, (_, client) => client), SERVER];
    const members = third === undefined ? all : [memberOf(third, this.recording.clients)];
    return members.flatMap((member) => this.#changesOf(member, from, to));
  }

  #changesOf(member, from, to) {
    const title = titleOf({ what: "doc", client: member === SERVER ? null : member });
    const [before, after] = [from, to].map((place) => hasDocument(this.recording, member, place));
    if (!before || !after) return [`${title}: ${before || after ? "joined between the two places" : "not joined"}`];
    const [head, ...more] = differenceOf(this.#documentOf(member, from), this.#documentOf(member, to));
    return [`${title}: ${head}`, ...more];
  }

  _where() {
    return this.#moveTo(this.place);
  }

  _verdict() {
    return this.recording.outlook(this.place);
  }

  _list([first, second]) {
    const { instructions, end } = this.recording;
    const middle = first === undefined ? this.place : this.#placeOf(first);
    const [from, to] = second === undefined ? [Math.max(0, middle - AROUND), middle + AROUND] : [middle, this.#placeOf(second)];
    if (from > to) throw new Complaint(`${from} is behind ${to}`);
    const width = String(end).length;
    return instructions.slice(from, to).map((it) => `${this.#mark(it.number)} ${String(it.number).padStart(width)}  line ${it.line}: ${this.#listed(it)}`);
  }

  /** An instruction of a list; an edit that is performed with its operation. */
  #listed({ number, words, refused }) {
    if (refused) return `${words}  (refused)`;
    const { edit } = this.#instructionAt(number);
    return edit === undefined ? words : `${words} ${shortOperation(edit)}`;
  }

  _show([word]) {
    const { recording, place } = this;
    if (word === "server") return recording.server(place);
    if (word !== undefined) return recording.client(clientOf(word, recording.clients), place);
    const all = Array.from({ length: recording.clients }, (_, client) => client);
    if (all.length <= MANY) return [...all.flatMap((client) => recording.client(client, place)), ...recording.server(place)];
    return [...all.map((client) => recording.head(client, place)), ...recording.server(place), "show C shows what client C awaits, and its links"];
  }

  _print([what, word, third]) {
    const { recording, place } = this;
    if (what === "port") return this.#printPort(word, third);
    if (third !== undefined) throw new Complaint(`${third} is a word too many`);
    if (what === "instruction") return this.#told(word);
    if (what === "difference" && word === undefined) return this.#printDifference();
    const { client } = subjectOf(word === undefined ? [what] : [what, word], recording.clients, PRINTED);
    const links = { link: () => recording.link(client, place), message: () => recording.message(client, place) };
    const found = Object.hasOwn(links, what) ? links[what]() : [recording.value({ what, client }, place)];
    return found.length ? found : ["none"];
  }

  /** A value as the port printed it last. */
  #printPort(what, who) {
    const { recording, place } = this;
    if (recording.port === null) throw new Complaint("there are no lines of a port");
    if (what === undefined) throw new Complaint("a value is missing");
    if (!Object.hasOwn(PORT, what)) throw new Complaint(`${what} is no value of a port's line: they are ${Object.keys(PORT).join(", ")}`);
    return recording.printed(memberOf(who, recording.clients), PORT[what], place);
  }

  /** The difference of the place in which the port differs, else the first one. */
  #printDifference() {
    const { difference, port } = this.recording;
    if (this.place > 0 && (difference?.place === this.place || port?.differencesAt(this.place).length)) return this.#differenceAt(this.place, (words) => words);
    if (!difference) return ["none"];
    return difference.place === this.place ? difference.words : [`the port does not differ at place ${this.place}; its first difference:`, ...difference.words];
  }

  _explain([word]) {
    return this.#told(word);
  }

  /** What an instruction did, and the method of ot.js with its transforms and ties, or how it goes through one of them; of a refused one its reason. */
  _why(words) {
    const at = words.findIndex((word) => isBegun(word, "walk"));
    const [[word, ...more], [which, ...others]] = at < 0 ? [words, []] : [words.slice(0, at), words.slice(at + 1)];
    const extra = [...more, ...others][0];
    if (extra !== undefined) throw new Complaint(`${extra} is a word too many`);
    const wanted = this.#count(which, 1);
    const told = this.#told(word);
    const number = word === undefined ? this.last : Number(word);
    if (number === null || number >= this.recording.end) return told;
    const call = this.recording.call(number);
    const said = at < 0 ? this.#reasons(call, told) : this.#walked(call, told, wanted);
    return [...said, ...this.recording.portAt(number + 1)];
  }

  #reasons(call, told) {
    return call === null ? [...told, "  nothing is transformed"] : [...told.slice(0, -1), ...reasonsOf(call, this.recording.session.log)];
  }

  /** How ot.js goes through the operations of one of a call's transforms, counted from 1, or of its compose. */
  #walked(call, told, wanted) {
    const walks = call === null ? [] : walksOf(call, this.recording.session.log);
    if (walks.length === 0) return [...told, "  nothing is transformed or composed"];
    if (wanted > walks.length) throw new Complaint(`${wanted} is no transform or compose there: they are 1 to ${walks.length}`);
    return [told[0], `  ${call.rule}`, ...walkLines(walks, wanted - 1)];
  }

  /** An instruction in words: by its number, or that which was performed or undone last. */
  #told(word) {
    const { instructions, opening } = this.recording;
    if (word === undefined) return this.last === null ? [opening] : instructions[this.last].told;
    if (!/^\d{1,9}$/.test(word) || Number(word) >= instructions.length) throw new Complaint(`${word} is no instruction: ${instructions.length ? `they are 0 to ${instructions.length - 1}` : "there are none"}`);
    return instructions[Number(word)].told;
  }

  _source([file]) {
    if (file === undefined) throw new Complaint("a file is missing");
    if (this.isSourcing) throw new Complaint("a file of commands sources no other");
    const lines = this.#files().read(file).split("\n");
    const long = lines.findIndex(({ length }) => length > MOST);
    if (long >= 0) throw new Complaint(`${file}, line ${long + 1}: the line has more than ${MOST.toLocaleString("en")} characters`);
    this.isSourcing = true;
    try {
      return this.#performAll(file, lines);
    } finally {
      this.isSourcing = false;
      this.repeated = `source ${file}`;
    }
  }

  /** Performs lines up to the first that is complained of, each below its words. */
  #performAll(file, lines) {
    const said = [];
    for (const [i, line] of lines.entries()) {
      if (this.isOver) break;
      if (/^\s*(;.*)?$/.test(line)) continue;
      said.push(`> ${shortLine(line.trim())}`);
      try {
        said.push(...this.#perform(line));
      } catch (fault) {
        if (!(fault instanceof Complaint)) throw fault;
        return [...said, shortWords(`${file}, line ${i + 1}: ${fault.message}`)];
      }
    }
    return said;
  }

  _save([file]) {
    if (file === undefined) throw new Complaint("a file is missing");
    const commands = this.stops.all.map(({ command }) => `${command}\n`);
    this.#files().write(file, commands.join(""));
    return [`${commands.length} commands in ${file}; source ${file} performs them`];
  }

  _export([file, word]) {
    if (file === undefined) throw new Complaint("a file is missing");
    if (word !== undefined && word !== "complete") throw new Complaint(`${word} is not known`);
    const text = this.recording.scheduleUpTo(this.place, word === "complete");
    this.#files().write(file, text);
    return [`${this.place} instructions in ${file}${word === "complete" ? ", and what was under way behind them" : ""}`];
  }

  _reload() {
    if (this.source === null) throw new Complaint("there is no file to read again");
    let recording;
    try {
      recording = this.source.open();
    } catch (fault) {
      if (fault instanceof RefusedText) return [...fault.message.trimEnd().split("\n"), "the run stays as it was"];
      throw fault;
    }
    const said = this.goOnIn(recording);
    return [...this.greeting().slice(0, -1), ...said, ...this.#moveTo(this.place)];
  }

  /** Sets a break, watch or display once more; where that is not possible, it says so. */
  #set(command) {
    const { repeated } = this;
    try {
      this.#perform(command);
      return [];
    } catch (fault) {
      if (!(fault instanceof Complaint)) throw fault;
      return [`no ${command} any more: ${fault.message}`];
    } finally {
      this.repeated = repeated;
    }
  }

  _edit() {
    if (this.source === null) throw new Complaint("there is no file to edit");
    const fault = this.source.edit();
    return fault === null ? this._reload() : [fault];
  }

  #files() {
    if (this.files === null) throw new Complaint("there are no files here");
    return this.files;
  }

  _help([word]) {
    return helpOf(word);
  }

  _quit() {
    this.isOver = true;
    return [];
  }

  #count(word, least = 0) {
    if (word === undefined) return 1;
    if (!/^\d{1,9}$/.test(word)) throw new Complaint(`${word} is no number`);
    if (Number(word) < least) throw new Complaint(`a number from ${least} is wanted`);
    return Number(word);
  }

  #placeOf(word, most = this.recording.end) {
    if (!/^\d{1,9}$/.test(word) || Number(word) > most) throw new Complaint(`${word} is no place: they are 0 to ${most}`);
    return Number(word);
  }

  #placeOfLine(word) {
    if (word === undefined) throw new Complaint("the line's number is missing");
    const found = this.recording.instructions.find(({ line }) => String(line) === word);
    if (!found || found.refused) throw new Complaint(`line ${word} has no instruction that is performed`);
    return found.number + 1;
  }

  /** What an instruction that is performed has done. */
  #instructionAt(number) {
    return this.recording.session.steps[number + 1].line;
  }

  /** Goes there, as far as there is something, and says where that is. */
  #moveTo(wanted) {
    const { recording } = this;
    const place = Math.max(0, Math.min(recording.end, wanted));
    if (place > this.place) this.last = place - 1;
    else if (place < this.place) this.last = place;
    else if (this.last === null && place > 0) this.last = place - 1;
    this.place = place;
    const said = this.last === null ? [recording.opening] : this.#whereIs(recording.instructions[this.last], this.last >= place);
    return wanted > recording.end || (place === recording.end && this.last !== null && this.last < place) ? [...said, ...this.#ending()] : said;
  }

  /** Where the place is, and, behind an instruction, where that led. */
  #whereIs({ number, told }, isBack = false) {
    const head = this.recording.leading(number + 1);
    return isBack ? [`before ${head}`] : [`behind ${head}`, told.at(-1)];
  }

  #ending() {
    const { refused, end } = this.recording;
    return refused ? [`the end: line ${refused.line}, instruction ${refused.number}: ${refused.words} is refused`, refused.told.at(-1)] : [`the end: ${this.recording.server(end).at(-1)}`];
  }

  /** What conform says of the port's difference, where it is such a one. */
  #differenceIf(isIt) {
    const { difference } = this.recording;
    return difference && isIt(difference) ? shortVerdict(difference.words) : [];
  }

  /** Which instruction was the last one performed at the place, and which comes next. */
  #mark(number) {
    return number === this.place - 1 ? "->" : number === this.place ? " >" : "  ";
  }
}
