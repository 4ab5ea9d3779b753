/*
 * Makes sessions smaller as long as the last of them still shows what it showed: fewer sessions before it, fewer instructions, fewer
 * clients, shorter texts.
 *
 * What is reduced is a list of schedules, as one process of a port is given them; mostly it is one schedule. Whatever is left out,
 * the rest is fitted to it: an edit to the length that its client's document has then, and what cannot be performed any more goes too.
 * So every schedule that is tried is performed whole. Its texts have one unit for each character.
 */

import { makePort } from "../oracle/otjs.js";
import { Session } from "../examples/port/session.js";

/* ot.js, to perform what is left. */
const otjs = makePort();

const LONG = 60; // a session of more instructions, or with more components in an edit, is gone through once, and without trying each component
const MANY = 8; // of an edit of more components runs of them are left out
const PATIENCE = 32; // there a way ends behind so many candidates in a row of which none shows it
const MOST_START = 40_000; // characters of a start

const isLong = ({ instructions }) => instructions.length > LONG || instructions.some(({ edit }) => edit?.length > LONG);

/* The schedule with edits fitted and without what cannot be performed. */
function repaired(schedule) {
  const session = new Session(otjs, schedule);
  const instructions = [];
  for (const given of schedule.instructions) {
    try {
      const instruction = fitted(given, session.clients[given.client]);
      session.perform(instruction);
      instructions.push(instruction);
    } catch {
      continue; // it cannot be performed, and has changed nothing
    }
  }
  return { ...schedule, instructions };
}

/* An instruction as its client can perform it: an edit over its document, what it receives by the word for it. */
function fitted(instruction, client) {
  const { word, edit } = instruction;
  if (word === "edit") return { ...instruction, edit: fittedEdit(edit, client.document.length) };
  if (word === "deliver" || word === "ack") return { ...instruction, word: client.down[0] === null ? "ack" : "deliver" };
  return instruction;
}

const kindOf = (component) => (typeof component === "string" ? "insert" : Math.sign(component));

/* Adds a component that is not empty, to the last one where both are of one kind. */
function append(edit, component) {
  if (component === "" || component === 0) return;
  const last = edit.at(-1);
  if (last !== undefined && kindOf(last) === kindOf(component)) edit[edit.length - 1] = last + component;
  else edit.push(component);
}

/* An edit cut, or led on by a retain, to a document's length. An insertion behind a deletion stays there. */
function fittedEdit(edit, length) {
  const fitted = [];
  for (const component of edit) {
    const step = typeof component === "string" ? 0 : Math.min(Math.abs(component), length);
    append(fitted, typeof component === "string" ? component : Math.sign(component) * step);
    length -= step;
  }
  append(fitted, length);
  return fitted;
}

const sum = (numbers) => numbers.reduce((total, number) => total + number, 0);

/* What reducing makes less: instructions, then clients, components, characters and lengths. */
function size({ clients, present, start, instructions }) {
  const components = instructions.flatMap(({ edit }) => edit ?? []);
  const isText = (component) => typeof component === "string";
  const texts = [start, ...components.filter(isText)];
  const lengths = sum(components.filter((component) => !isText(component)).map(Math.abs));
  const rare = sum(texts.map((text) => text.replaceAll("a", "").length));
  return [instructions.length, clients, clients - present, components.length, sum(texts.map((text) => text.length)), lengths, rare];
}

function isLess(one, other) {
  const at = one.findIndex((value, i) => value !== other[i]);
  return at >= 0 && one[at] < other[at];
}

/* A list without a run of its elements, long runs first; where there are not many the runs overlap. */
function* withoutRuns(list) {
  for (let length = Math.ceil(list.length / 2); length > 0; length = Math.floor(length / 2))
    for (let at = 0; at + length <= list.length; at += list.length > LONG ? length : Math.max(Math.floor(length / 2), 1)) yield list.toSpliced(at, length);
}

/* Without a run of instructions. */
function* fewerInstructions(schedule) {
  for (const instructions of withoutRuns(schedule.instructions)) yield { ...schedule, instructions };
}

/* A short schedule without two or three instructions that stand apart. There are many of these, and each leaves out little. */
function* withoutSomeApart(schedule) {
  const { instructions } = schedule;
  for (const [count, most] of [[2, 24], [3, 12]])
    if (count <= instructions.length && instructions.length <= most)
      for (const kept of without(instructions, count)) yield { ...schedule, instructions: kept };
}

/* The list without so many of its elements, in each way. */
function* without(list, count, from = 0) {
  if (count === 0) yield list;
  else for (let at = from; at < list.length; at++) yield* without(list.toSpliced(at, 1), count - 1, at);
}

/* Without an edit whose text stands in the start instead. */
function* longerStart(schedule) {
  const { start, instructions } = schedule;
  for (const [at, { edit = [] }] of instructions.entries()) {
    const text = edit.filter((component) => typeof component === "string").join("");
    if (text === "" || text.length + start.length > MOST_START) continue;
    for (const longer of [text + start, start + text])
      yield { ...schedule, start: longer, instructions: instructions.toSpliced(at, 1) };
  }
}

/* Without a client, the others keeping their order; its instructions are another one's, or nobody's. */
function withoutClient(schedule, gone, heir) {
  const instructions = schedule.instructions.flatMap((instruction) => {
    const client = instruction.client === gone ? heir : instruction.client;
    if (client === null) return [];
    return [client > gone ? { ...instruction, client: client - 1 } : { ...instruction, client }];
  });
  const present = schedule.present - (gone < schedule.present ? 1 : 0);
  return { ...schedule, clients: schedule.clients - 1, present, instructions, names: schedule.names.filter((_, client) => client !== gone) };
}

/* Without a client, or with its instructions given to a neighbour; and with a joiner who is there from the beginning. */
function* fewerClients(schedule) {
  const { clients, present } = schedule;
  if (clients > 1)
    for (const isGiven of [false, true])
      for (let gone = 0; gone < clients; gone++) yield withoutClient(schedule, gone, isGiven ? (gone === 0 ? 1 : gone - 1) : null);
  if (present < clients) yield { ...schedule, present: present + 1 };
}

/* With all edits empty, and the start too or as it is. */
function* noTexts(schedule) {
  const instructions = schedule.instructions.map((instruction) => (instruction.edit ? { ...instruction, edit: [] } : instruction));
  yield { ...schedule, start: "", instructions };
  yield { ...schedule, instructions };
}

/* With a run of its edits empty, long runs first. */
function* fewerTexts(schedule) {
  const { instructions } = schedule;
  const edits = instructions.flatMap(({ edit }, at) => (edit?.length ? [at] : []));
  for (const list of withoutRuns(edits)) {
    const kept = new Set(list);
    yield { ...schedule, instructions: instructions.map((it, at) => (it.edit && !kept.has(at) ? { ...it, edit: [] } : it)) };
  }
}

const withEdit = (schedule, at, edit) => ({ ...schedule, instructions: schedule.instructions.with(at, { ...schedule.instructions[at], edit }) });

/* Without a run of the components of an edit that has many. */
function* fewerComponents(schedule) {
  for (const [at, { edit = [] }] of schedule.instructions.entries())
    if (edit.length > MANY) for (const kept of withoutRuns(edit)) yield withEdit(schedule, at, kept);
}

/* Shorter texts, and one of plain letters. */
function* shorter(text) {
  yield "";
  yield "a".repeat(text.length);
  for (let half = Math.floor(text.length / 2); half > 0; half = Math.floor(half / 2)) {
    yield text.slice(0, -half);
    yield text.slice(half);
  }
}

/* What may stand for a component of an edit. */
function simpler(component) {
  if (typeof component === "string") return shorter(component);
  const sign = Math.sign(component);
  return [0, sign, sign * Math.floor(Math.abs(component) / 2), component - sign];
}

/* With fewer characters in the start, and as many fewer in each length that has more than these. */
function* fewerCharacters(schedule) {
  const { start, instructions } = schedule;
  for (let fewer = start.length - 1; fewer > 0; fewer = Math.floor(fewer / 2)) {
    const lessened = (component) => (typeof component === "string" || Math.abs(component) <= fewer ? component : component - Math.sign(component) * fewer);
    yield { ...schedule, start: start.slice(fewer), instructions: instructions.map((it) => (it.edit ? { ...it, edit: it.edit.map(lessened) } : it)) };
  }
}

/* With a shorter start, or one component of one edit simpler. */
function* shorterTexts(schedule) {
  for (const start of shorter(schedule.start)) yield { ...schedule, start };
  for (const [at, { edit = [] }] of isLong(schedule) ? [] : schedule.instructions.entries())
    for (const [place, component] of edit.entries()) for (const other of simpler(component)) yield withEdit(schedule, at, edit.with(place, other));
}

/* The last sessions alone, few first; then without a run of those before the last. */
function* fewerSessions(sessions) {
  for (let count = 1; count < sessions.length; count *= 2) yield sessions.slice(-count);
  for (const kept of withoutRuns(sessions.slice(0, -1))) yield [...kept, sessions.at(-1)];
}

/* A way to make a schedule smaller, as one for the last session, and then for those before it. */
const ofEach = (way) =>
  function* (sessions) {
    for (let at = sessions.length - 1; at >= 0; at--)
      for (const given of way(sessions[at])) {
        const candidate = repaired(given);
        if (isLess(size(candidate), size(sessions[at]))) yield sessions.with(at, candidate);
      }
  };

const WAYS = [fewerSessions, ...[fewerInstructions, longerStart, fewerClients, noTexts, fewerTexts, fewerComponents, withoutSomeApart, fewerCharacters, shorterTexts].map(ofEach)];

/* What stands in a list from one number on, up to another. */
function* slice(list, from, to) {
  let number = 0;
  for (const it of list) {
    if (number >= to) return;
    if (number++ >= from) yield it;
  }
}

/* The smallest sessions so far, and what was tried. */
class Reduction {
  constructor(sessions, firstShown, isOver) {
    this.sessions = sessions;
    this.firstShown = firstShown;
    this.isOver = isOver;
    this.seen = new Set();
  }

  /* Goes on with the first of the candidates that shows it, cut behind where it does if that shows it too. How many stand before it, or -1 where none shows it. */
  async tryFirst(candidates) {
    const numbers = [];
    const shown = await this.firstShown(this.#untried(candidates, numbers));
    if (shown === null) return -1;
    this.sessions = shown.sessions;
    await this.cut(shown.needed);
    return numbers[shown.number];
  }

  /* The candidates that were not tried; `numbers` gets how many stand before each. */
  *#untried(candidates, numbers) {
    let number = 0;
    for (const candidate of candidates) {
      const key = JSON.stringify(candidate);
      if (!this.seen.has(key)) {
        this.seen.add(key);
        numbers.push(number);
        yield candidate;
      }
      number++;
    }
  }

  /* Without the instructions of the last session that it does not take. */
  async cut(needed) {
    const last = this.sessions.at(-1);
    if (needed >= last.instructions.length || this.isOver()) return;
    await this.tryFirst([this.sessions.with(-1, { ...last, instructions: last.instructions.slice(0, needed) })]);
  }

  isLong() {
    return this.sessions.some(isLong);
  }

  /* Goes one way until nothing on it shows it any more. Behind a success it goes on from there, and then begins again. */
  async exhaust(way) {
    let [hasMoved, passed] = [false, 0];
    while (!this.isOver()) {
      const number = await this.tryFirst(slice(way(this.sessions), passed, this.isLong() ? passed + PATIENCE : Infinity));
      if (number < 0 && (passed === 0 || this.isLong())) break;
      hasMoved ||= number >= 0;
      passed = number < 0 ? 0 : passed + number;
    }
    return hasMoved;
  }

  /* All ways, as long as one of them makes it smaller. */
  async run() {
    let hasMoved = true;
    while (hasMoved && !this.isOver()) {
      hasMoved = false;
      for (const way of WAYS) hasMoved = (await this.exhaust(way)) || hasMoved;
      if (this.isLong()) break;
    }
  }
}

/**
 * The smallest sessions that were found to show it.
 * @template Schedule
 * @param {Schedule[]} sessions
 * @param {number} needed how many instructions of the last it takes to show it
 * @param {(candidates: Iterable<Schedule[]>) => Promise<{ number: number, sessions: Schedule[], needed: number } | null>} firstShown the first that shows it, by how many
 *   stand before it; its sessions up to the one that shows it, and how many instructions of that one it takes. null where none shows it
 * @param {() => boolean} isOver whether the time for it is over
 * @returns {Promise<Schedule[]>}
 */
export async function reduced(sessions, needed, firstShown, isOver) {
  const reduction = new Reduction(sessions, firstShown, isOver);
  await reduction.cut(needed);
  await reduction.run();
  return reduction.sessions;
}
