// What a command asks for of a session: a client's document, state or operation, or something of the server's.

import { SERVER } from "../common/fold.mjs";
import { Complaint } from "./commands.mjs";

/** @typedef {{ what: string, client: number | null }} Subject of a client; null: the server's */

/** What can be asked for of a client. */
export const WATCHED = ["doc", "state", "outstanding", "buffer"];

/** A client by its number. @param {string | undefined} word @param {number} clients how many there are */
export function clientOf(word, clients) {
  if (!/^\d{1,9}$/.test(word ?? "") || Number(word) >= clients) throw new Complaint(`${word ?? "nothing"} is no client: they are 0 to ${clients - 1}`);
  return Number(word);
}

/** A client by its number, or the server. @param {string | undefined} word @param {number} clients @returns {number | "server"} */
export const memberOf = (word, clients) => (word === SERVER ? SERVER : clientOf(word, clients));

function stringOf(word) {
  try {
    return JSON.parse(word);
  } catch {
    throw new Complaint(`${word} is no JSON string`);
  }
}

/** A text as it is written: a JSON string, or a word. Half of a surrogate pair is refused, though JavaScript finds it within the pair. @param {string} word */
export function textOf(word) {
  const text = word.startsWith('"') ? stringOf(word) : word;
  if (!text.isWellFormed()) throw new Complaint(`${word} has half of a surrogate pair, which no document has`);
  return text;
}

/**
 * The subject that words name: `doc 0`, `doc server`, or `server`, the server's revision.
 * @param {string[]} words @param {number} clients @param {string[]} known what can be asked for of a client
 * @returns {Subject}
 */
export function subjectOf([what, client, ...more], clients, known = WATCHED) {
  if (more.length) throw new Complaint(`${more[0]} is a word too many`);
  if (what === undefined) throw new Complaint("a value is missing");
  if (what === "server" && client === undefined) return { what, client: null };
  if (what === "server") throw new Complaint(`${client} is a word too many`);
  if (!known.includes(what)) throw new Complaint(`${what} is no value of a client: they are ${known.join(", ")}`);
  if (what === "doc" && client === "server") return { what, client: null };
  return { what, client: clientOf(client, clients) };
}

/** A subject as commands name it. @param {Subject} subject */
export const wordsOf = ({ what, client }) => (what === "server" ? what : `${what} ${client ?? "server"}`);

/** A subject as answers name it. @param {Subject} subject */
export function titleOf({ what, client }) {
  if (client !== null) return `client ${client} ${what}`;
  return what === "server" ? "the server's revision" : "the server's document";
}
