// Instructions by their first words: `take`, `take 1`, and of an edit its operation: `edit 5 [100,-2]`.

import { Complaint } from "./commands.mjs";
import { clientOf } from "./subjects.mjs";
import { nearest } from "../common/nearest.mjs";

export const INSTRUCTIONS = ["edit", "take", "deliver", "ack", "join", "read", "read-server"];

/** The operation that a word is. @param {string} word @returns {string} as `steps` prints it */
function operationOf(word) {
  try {
    const operation = JSON.parse(word);
    if (Array.isArray(operation)) return JSON.stringify(operation);
  } catch {
    // said below
  }
  throw new Complaint(`${word} is no operation`);
}

/**
 * Whether an instruction that leads to a place has these first words.
 * @param {string[]} words @param {import("./recording.mjs").Recording} recording @returns {(place: number) => boolean}
 */
export function matching(words, { instructions, session }) {
  const hasOperation = words[0] === "edit" && words.length === 3;
  const operation = hasOperation ? operationOf(words[2]) : null;
  const wanted = `${(hasOperation ? words.slice(0, 2) : words).join(" ")} `;
  return (place) => `${instructions[place - 1].words} `.startsWith(wanted) && (operation === null || JSON.stringify(session.steps[place]?.line.edit) === operation);
}

/** Refuses first words that no instruction can have. @param {string[]} words @param {number} clients */
export function checkWords([word, client, ...more], clients) {
  if (!INSTRUCTIONS.includes(word)) {
    const near = nearest(word, INSTRUCTIONS);
    throw new Complaint(`${word} is no instruction${near.length ? `; nearest: ${near.join(", ")}` : `: they are ${INSTRUCTIONS.join(", ")}`}`);
  }
  if (client === undefined) return;
  if (word === "read-server") throw new Complaint(`${client} is a word too many`);
  clientOf(client, clients);
  const most = word === "edit" ? 1 : 0;
  if (more.length > most) throw new Complaint(`${more[most]} is a word too many`);
}
