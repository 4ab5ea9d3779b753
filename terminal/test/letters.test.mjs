// Who inserted what, by the documents that the program prints. The table looks at no letter (`ot_letters`: `run_maps`): a session in which each
// inserted character is a letter of its own runs as before, and a letter in a document says which insertion it is.
// LETTERS_SESSIONS says how many generated sessions, LETTERS_SEED the first one's seed.

import assert from "node:assert/strict";
import test from "node:test";
import { chance } from "../../recorder/test/live_session.js";
import { SERVER } from "../../common/fold.mjs";
import { Debugger } from "../debugger.mjs";
import { Recording } from "../recording.mjs";
import { ask, options } from "./program.mjs";

const SESSIONS = Number(process.env.LETTERS_SESSIONS || 20);
const SEED = Number(process.env.LETTERS_SEED || 1);
const FIRST = 0xf0000; // letters of private use

function generated(seed, random) {
  const clients = 1 + random(4);
  const words = ["generate", "--seed", String(seed), "--clients", String(clients), "--present", String(random(clients + 1)), "--instructions", String(10 + random(50)), ...(random(2) ? ["--open"] : [])];
  return ask(words, "").output;
}

/**
 * A schedule in which each character that is inserted is a letter of its own, and of each letter its origin.
 * @returns {{ schedule: string, origins: Map<string, { maker: number | null, number: number, character: string }> }} maker null: the start text
 */
function relettered(schedule) {
  const origins = new Map();
  const letters = (text, maker, number) => Array.from(text, (character) => {
    const letter = String.fromCodePoint(FIRST + origins.size);
    origins.set(letter, { maker, number, character });
    return letter;
  }).join("");
  let number = 0;
  const lines = schedule.trimEnd().split("\n").map((line) => {
    const [, start] = /^start (.*)$/.exec(line) ?? [];
    if (start !== undefined) return `start ${JSON.stringify(letters(JSON.parse(start), null, 0))}`;
    if (/^(clients|present) /.test(line)) return line;
    const [, client, json] = /^edit (\d+) (.*)$/.exec(line) ?? [];
    const operation = json && JSON.parse(json).map((part) => (typeof part === "string" ? letters(part, Number(client), number) : part));
    number++;
    return operation ? `edit ${client} ${JSON.stringify(operation)}` : line;
  });
  return { schedule: `${lines.join("\n")}\n`, origins };
}

const stepsOf = (schedule) => ask(["steps", "--documents"], schedule).output.split("\n").filter(Boolean).map((line) => JSON.parse(line));

const movedBy = (line) => (line.do === "take" || line.do === "read-server" ? SERVER : line.client);

/** The documents at each place, by participant, as the program prints them; those that have not joined have none. */
function documentsOf([opening, ...lines]) {
  const present = Array.from({ length: opening.present }, (_, client) => [client, opening.start]);
  const documents = [new Map([[SERVER, opening.start], ...present])];
  for (const line of lines) if (line.end === undefined && line.stopped === undefined) documents.push(new Map(documents.at(-1)).set(movedBy(line), line.document));
  return documents;
}

/** What `who` has to answer for a letter of a document, by the lines and documents of the session of letters: numbers of instructions. */
class Ways {
  constructor(lines, documents) {
    this.entered = new Map([...documents.at(-1).keys()].map((who) => [who, new Map()])); // at which place a letter came to a participant
    documents.forEach((all, place) => all.forEach((text, who) => [...text].forEach((letter) => this.entered.get(who).has(letter) || this.entered.get(who).set(letter, place))));
    this.sent = new Map(); // in which instruction a letter was sent
    for (const line of lines) for (const letter of (line.sent?.operation ?? []).flatMap((part) => (typeof part === "string" ? [...part] : []))) this.sent.set(letter, line.at - 1);
    this.joins = new Set(lines.filter((line) => line.do === "join").map(({ at }) => at));
  }

  /** The lines of the way as [what, number]. */
  of(letter, { maker, number }, who, place) {
    const way = [[`inserted by client ${maker}`, number]];
    const sent = this.sent.get(letter);
    if (sent !== undefined && sent < place && sent !== number) way.push(["sent from the buffer", sent]);
    const taken = this.entered.get(SERVER).get(letter);
    if (taken === undefined || taken > place) return way;
    way.push(["taken by the server", taken - 1]);
    if (who === SERVER || who === maker) return way;
    const came = this.entered.get(who).get(letter);
    return [...way, [this.joins.has(came) ? `client ${who} has it since it joined` : `delivered to client ${who}`, came - 1]];
  }
}

/** The lines of an answer of `who` as [what, number]. */
const wayIn = (answer) => answer.slice(1).map((line) => /^ {2}(.*?)(?: as revision \d+)?: line \d+, instruction (\d+): /.exec(line)).map(([, what, number]) => [what, Number(number)]);

const authorOf = ({ maker, number }) => (maker === null ? "the start text" : `client ${maker}, instruction ${number}`);

/** The pieces that `blame` shows of a document. */
function piecesOf(origins) {
  const pieces = [];
  for (const origin of origins) {
    if (pieces.at(-1)?.author === authorOf(origin)) pieces.at(-1).text += origin.character;
    else pieces.push({ author: authorOf(origin), text: origin.character });
  }
  return pieces.map(({ author, text }) => `${JSON.stringify(text)}  ${author}`);
}

test(`${SESSIONS} generated sessions: who and blame say of each character what the program's documents say, at each place`, options, () => {
  let asked = 0;
  for (let seed = SEED; seed < SEED + SESSIONS; seed++) {
    const schedule = generated(seed, chance(seed));
    const { schedule: letters, origins } = relettered(schedule);
    const lines = stepsOf(letters);
    const documents = documentsOf(lines);
    const ways = new Ways(lines, documents);
    const session = new Debugger(new Recording(ask, schedule));
    assert.equal(documents.length, session.recording.end + 1, `seed ${seed}`);
    documents.forEach((all, place) => {
      session.perform(`goto ${place}`);
      all.forEach((text, who) => {
        const where = `seed ${seed}, place ${place}, ${who}`;
        assert.deepEqual(session.perform(`blame ${who}`), text ? piecesOf([...text].map((letter) => origins.get(letter))) : ["the document is empty"], where);
        [...text].forEach((letter, i) => {
          const origin = origins.get(letter);
          const answer = session.perform(`who ${who} ${i}`);
          const head = `${JSON.stringify(origin.character)} at ${i} of the document of ${who === SERVER ? "the server" : `client ${who}`}`;
          if (origin.maker === null) assert.deepEqual(answer, [`${head}: of the start text`], where);
          else assert.deepEqual([answer[0], ...wayIn(answer)], [head, ...ways.of(letter, origin, who, place)], where);
          asked++;
        });
      });
    });
  }
  assert.ok(asked > SESSIONS * 20, String(asked));
});

const timesIn = (text, wanted) => text.split(wanted).length - 1;

/** The place at which a document next has a text more or less often, or null, by the program's documents. */
function changeOf(lines, documents, wanted, place, direction) {
  for (let p = direction > 0 ? place + 1 : place; p >= 1 && p < documents.length; p += direction) {
    const who = movedBy(lines[p]);
    if (timesIn(documents[p - 1].get(who) ?? "", wanted) !== timesIn(documents[p].get(who), wanted)) return direction > 0 ? p : p - 1;
  }
  return null;
}

test(`${SESSIONS} generated sessions: find and rfind lead to where the program's documents gain or lose a text`, options, () => {
  let found = 0;
  for (let seed = SEED; seed < SEED + SESSIONS; seed++) {
    const random = chance(seed);
    const schedule = generated(seed, random);
    const lines = stepsOf(schedule);
    const documents = documentsOf(lines);
    const session = new Debugger(new Recording(ask, schedule));
    for (let i = 0; i < 40; i++) {
      const all = [...[...documents[random(documents.length)].values()].join("")];
      const wanted = all.slice(random(all.length)).slice(0, 1 + random(2)).join("");
      if (wanted === "") continue;
      const [place, direction] = [random(documents.length), random(2) ? 1 : -1];
      session.perform(`goto ${place}`);
      session.perform(`${direction > 0 ? "find" : "rfind"} ${JSON.stringify(wanted)}`);
      const there = changeOf(lines, documents, wanted, place, direction);
      assert.equal(session.place, there ?? place, `seed ${seed}: ${JSON.stringify(wanted)} from ${place}, ${direction}`);
      if (there !== null) found++;
    }
  }
  assert.ok(found > SESSIONS * 5, String(found));
});
