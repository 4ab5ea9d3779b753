/* What was compared of the sessions that conform: how often each key, and whether a document of each client and of the server. */

import { valueIn } from "../common/json.mjs";
import { nearest } from "../common/nearest.mjs";
import { valuesOf } from "../common/schedule.mjs";
import { textOf } from "../common/text.mjs";

/** The keys that can be needed: those that conform counts, and the message, which it does not. */
export const NEEDED_KEYS = [
  ..."clients present start do client edit revision state outstanding buffer sent applied appended document end".split(" "),
  "message",
];

/* The values by which a port can leave ot.js; without one of them nothing was compared. */
const VALUES = ["edit", "revision", "state", "outstanding", "buffer", "sent", "applied", "appended", "document"];
const RECEIVES = ["take", "deliver"]; // the instructions that have a message
const SERVER = "server";

/* Whose document an instruction's line shows: a client's number, or the server. */
const moverOf = ({ word, client }) => (word === "take" || word === "read-server" ? SERVER : client);

/* A port's lines as values, those that are some. */
function* valuesIn(lines) {
  const list = Array.isArray(lines) ? lines : (typeof lines === "string" ? lines : textOf(lines)).split("\n");
  for (const line of list) {
    const value = typeof line === "string" ? valueIn(line) : line;
    if (value !== null && typeof value === "object") yield value;
  }
}

export class Compared {
  constructor(needed) {
    this.needed = needed;
    this.keys = {};
    this.unknown = new Set();
    this.sessions = 0;
    this.without = { client: 0, server: 0 }; // sessions in which no document of a client, or of the server, was compared
  }

  /** Adds a session that conforms. @param {import("./verdict.mjs").Verdict} verdict */
  add({ schedule, answer, lines }) {
    this.sessions++;
    for (const [key, count] of Object.entries(answer.compared ?? {})) this.keys[key] = (this.keys[key] ?? 0) + count;
    for (const { key } of answer.unknown ?? []) this.unknown.add(key);
    if (this.needed.some((key) => key === "document" || key === "message")) this.#look(valuesOf(schedule).instructions, lines);
  }

  /* Looks in the lines for a document of each who moves, and for messages. */
  #look(instructions, lines) {
    const missing = new Set(instructions.map(moverOf));
    const isWanted = { message: this.needed.includes("message"), document: this.needed.includes("document") };
    for (const { at, document, message } of valuesIn(lines)) {
      const instruction = instructions[at - 1];
      if (instruction && document !== undefined && document !== null) missing.delete(moverOf(instruction));
      if (instruction && isWanted.message && message !== undefined && message !== null && RECEIVES.includes(instruction.word)) this.keys.message = (this.keys.message ?? 0) + 1;
      if (missing.size === 0 && !isWanted.message) break;
    }
    if (!isWanted.document) return;
    if (missing.delete(SERVER)) this.without.server++;
    if (missing.size > 0) this.without.client++;
  }

  /** What of the needed keys was never compared, or null. */
  lacks() {
    if (this.sessions === 0) return null;
    if (this.needed.length > 0 && VALUES.every((key) => !this.keys[key])) return `nothing was compared: no line of the driver has one of ${VALUES.join(", ")}`;
    const lacks = this.needed.filter((key) => !this.keys[key]);
    if (this.needed.includes("document") && this.keys.document)
      for (const [whose, count] of [["a client", this.without.client], ["the server", this.without.server]])
        if (count > 0) lacks.push(`document of ${whose} in ${count} of ${this.sessions} sessions`);
    return lacks.length > 0 ? `never compared: ${lacks.join("; ")}` : null;
  }

  /** How often each key was compared. */
  line() {
    const words = Object.entries(this.keys).map(([key, count]) => `${key} ${count}`);
    return `compared ${words.join(" ") || "nothing"}`;
  }

  /** What is said of the keys that are none of `steps`, each once. */
  misspelt() {
    return [...this.unknown].sort().map((key) => {
      const [like] = nearest(key, NEEDED_KEYS);
      return `the key ${JSON.stringify(key)} is none of steps, and was not compared${like ? `: is it ${like}?` : ""}`;
    });
  }
}
