// Breaks, watches and displays, by their numbers.

import { Complaint } from "./commands.mjs";
import { conditionOf, holdingOf } from "./conditions.mjs";
import { checkWords, matching } from "./matching.mjs";
import { titleOf, wordsOf } from "./subjects.mjs";
import { change } from "./values.mjs";

/**
 * @typedef {{ number: number, kind: "break", command: string, place: number | null, places: number[], isAt: Set<number> }} Break
 * @typedef {{ number: number, kind: "watch" | "display", command: string, subject: import("./subjects.mjs").Subject }} Look
 */

const isNumber = (word = "") => /^\d+$/.test(word);

/** The parts of a break: what stands before `if`, its condition, and the number behind `time`. */
function partsOf(words) {
  const at = words.lastIndexOf("time");
  const hasTime = at >= 0 && at >= words.length - 2;
  if (hasTime && !/^[1-9]\d{0,8}$/.test(words[at + 1] ?? "")) throw new Complaint("time takes a number from 1");
  const rest = hasTime ? words.slice(0, at) : words;
  const from = rest.includes("if") ? rest.indexOf("if") : rest.length;
  if (rest.slice(0, from).includes("time")) throw new Complaint("time N stands last, behind if CONDITION");
  return { head: rest.slice(0, from), condition: from < rest.length ? rest.slice(from + 1) : null, time: hasTime ? Number(words[at + 1]) : null };
}

/** At how many places a break stops, and where. @param {number[]} places */
function told(places) {
  if (places.length === 0) return "it stops nowhere";
  return places.length === 1 ? `at place ${places[0]}` : `at ${places.length} places, from ${places[0]} to ${places.at(-1)}`;
}

/** Whether a break is of a place, without more. */
const isPlain = ({ command, place }) => command === `break ${place}`;

export class Stops {
  /** @param {import("./recording.mjs").Recording} recording */
  constructor(recording) {
    this.recording = recording;
    /** @type {(Break | Look)[]} */
    this.all = [];
    this.count = 0; // of those that there ever were
  }

  /** Adds a break, watch or display; answers whether it was there already. */
  #add(stop) {
    const isThere = this.all.some(({ command }) => command === stop.command);
    if (!isThere) this.all.push({ number: ++this.count, ...stop });
    return isThere;
  }

  /**
   * Sets a break. Its places are found once: all those at which it stops.
   * @param {string[]} words @param {(word: string) => number} placeOf @param {(word: string) => number} placeOfLine
   */
  addBreak(words, placeOf, placeOfLine) {
    const { head, condition, time } = partsOf(words);
    const isLine = head[0] === "line";
    const count = isLine ? 2 : 1;
    const hasPlace = isLine || isNumber(head[0]);
    if (hasPlace && head.length > count) throw new Complaint(`${head[count]} is a word too many`);
    const place = hasPlace ? (isLine ? placeOfLine : placeOf)(head[count - 1]) : null;
    const all = hasPlace ? [place].filter((p) => p <= this.recording.end) : this.#placesBehind(head, condition);
    const found = this.#whereHolds(all, head, condition);
    const places = time === null ? found : found.slice(time - 1, time);
    const command = ["break", ...(hasPlace ? [place] : head), ...words.slice(head.length)].join(" ");
    const isThere = this.#add({ kind: "break", command, place, places, isAt: new Set(places) });
    return [`${isThere ? "already: " : ""}${isPlain({ command, place }) ? `break at place ${place}${places.length ? "" : ", which is not reached"}` : `${command}: ${told(places)}`}`];
  }

  /** The places behind instructions with these first words; without words those behind each. */
  #placesBehind(head, condition) {
    if (head.length === 0 && condition === null) throw new Complaint("a place, words or a condition are missing");
    const places = Array.from({ length: this.recording.end }, (_, number) => number + 1);
    if (head.length === 0) return places;
    checkWords(head, this.recording.clients);
    return places.filter(matching(head, this.recording));
  }

  /** Those places at which a condition holds; without words, at which it begins to. */
  #whereHolds(places, head, condition) {
    if (condition === null) return places;
    const holding = holdingOf(this.recording, conditionOf(condition, this.recording.clients));
    return places.filter((p) => holding[p] && (head.length > 0 || !holding[p - 1]));
  }

  /** Watches or displays a value; answers whether it was already. @param {"watch" | "display"} kind @param {import("./subjects.mjs").Subject} subject */
  addLook(kind, subject) {
    return this.#add({ kind, command: `${kind} ${wordsOf(subject)}`, subject });
  }

  /** Removes one by its number; answers it. @param {number} number */
  remove(number) {
    const at = this.all.findIndex((stop) => stop.number === number);
    if (at < 0) throw new Complaint(`there is no break, watch or display ${number}`);
    return this.all.splice(at, 1);
  }

  /** Removes all watches; answers them. */
  removeWatches() {
    return this.#removeIf(({ kind }) => kind === "watch");
  }

  /** Removes the breaks at one place, or all breaks, watches and displays; answers them. @param {number | null} place */
  clear(place) {
    return this.#removeIf((stop) => place === null || (stop.kind === "break" && stop.place === place));
  }

  #removeIf(isGone) {
    const gone = this.all.filter(isGone);
    this.all = this.all.filter((stop) => !isGone(stop));
    return gone;
  }

  /** Brings back what was removed, but what has been set again since. @param {(Break | Look)[]} gone */
  bringBack(gone) {
    const isThere = new Set(this.all.map(({ command }) => command));
    this.all = [...this.all, ...gone.filter(({ command }) => !isThere.has(command))].sort((one, other) => one.number - other.number);
  }

  /** A line for each; of a break at how many places it stops, and how many of them are reached. @param {number} now */
  list(now) {
    const reached = ({ places }) => `  (at ${places.length} place${places.length === 1 ? "" : "s"}, ${places.filter((p) => p <= now).length} of them up to here)`;
    return this.all.map((stop) => `${stop.number} ${stop.command}${stop.kind === "break" ? reached(stop) : ""}`);
  }

  /** Why a run stops in a place, but for changes. @param {number} p */
  breaksAt(p) {
    const met = this.all.filter((stop) => stop.kind === "break" && stop.isAt.has(p));
    return met.map((stop) => `break at place ${p}${isPlain(stop) ? "" : `: ${stop.command.slice("break ".length)}`}`);
  }

  /** What is watched and changed by the instruction that leads to a place: both values, or the change of a long one. @param {number} p */
  changesAt(p) {
    const watches = this.all.filter(({ kind, subject }) => kind === "watch" && this.recording.isChanged(subject, p));
    return watches.map(({ subject }) => change(titleOf(subject), this.recording.value(subject, p - 1), this.recording.value(subject, p)));
  }

  /** What is displayed of a place. @param {number} place */
  displayed(place) {
    const shown = this.all.filter(({ kind }) => kind === "display");
    return shown.map(({ subject }) => `${titleOf(subject)}: ${this.recording.value(subject, place)}`);
  }
}
