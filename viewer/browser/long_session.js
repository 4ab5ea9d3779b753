/* A seeded session of many clients, as a schedule: messages are long under way, and documents grow. */

import { makePort } from "../../oracle/otjs.js";
import { Session } from "../../examples/port/session.js";
import { chance } from "../../recorder/test/live_session.js";

const WORDS = ["a", "be", "see", " ", "it is ", "xyz"];

function randomEdit(length, random) {
  const place = random(length + 1);
  const count = Math.min(random(4), length - place);
  const change = random(4) || count === 0 ? [WORDS[random(WORDS.length)]] : [-count];
  const rest = length - place - (change[0] < 0 ? count : 0);
  return [place, ...change, rest].filter((component) => component !== 0);
}

/* What a client does next, or null. */
function nextOf(client, random) {
  const what = random(10);
  if (what < 3) return { word: "edit", client: client.number, edit: randomEdit(client.document.length, random) };
  if (what < 5) return client.up && { word: "take", client: client.number };
  return client.down.length ? { word: client.down[0] ? "deliver" : "ack", client: client.number } : null;
}

export function longSchedule({ clients, instructions, seed = 1 }) {
  const random = chance(seed);
  const session = new Session(makePort(), { clients, present: clients, start: "start" });
  const lines = [`clients ${clients}`, 'start "start"'];
  while (lines.length < instructions + 2) {
    const instruction = nextOf(session.clients[random(clients)], random);
    if (!instruction) continue;
    session.perform(instruction);
    const { word, client, edit } = instruction;
    lines.push(`${word} ${client}${edit ? ` ${JSON.stringify(edit)}` : ""}`);
  }
  return `${lines.join("\n")}\n`;
}
