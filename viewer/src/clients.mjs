// The text of a schedule with a client more or fewer, and with one that joins later or from the opening on.

import { trimmed } from "../../common/input.mjs";
import { NAME, lineOfPlace, outlineOf } from "../../common/outline.mjs";

/** How many clients a schedule has at most. */
const MOST = 64;

const CLIENTS = /^(clients[ \t]+)(\d{1,9})$/;
const PRESENT = /^(present[ \t]+)(\d{1,9})$/;
const OF_CLIENT = /^((?:edit|take|deliver|ack|read|join)[ \t]+)(\d{1,9})(?![^ \t])/;

const clientOf = (line) => Number(OF_CLIENT.exec(trimmed(line))?.[2] ?? NaN);

/** How many clients a text has, and how many are there at the opening: { clients, present }; null where it does not say. */
export function countsOf(text, { opening }) {
  const lines = text.split("\n").slice(0, opening).map(trimmed);
  const number = (pattern) => lines.map((line) => pattern.exec(line)).find(Boolean)?.[2];
  const clients = number(CLIENTS);
  return clients === undefined ? null : { clients: Number(clients), present: Number(number(PRESENT) ?? clients) };
}

/* The text with other counts; its line of those that are present stands where some join later. */
function withCounts(text, { opening }, { clients, present }) {
  return text.split("\n").flatMap((raw, i) => {
    const line = trimmed(raw);
    if (i >= opening || PRESENT.test(line)) return i < opening ? [] : [raw];
    if (!CLIENTS.test(line)) return [raw];
    return [line.replace(CLIENTS, `$1${clients}`), ...(present < clients ? [`present ${present}`] : [])];
  }).join("\n");
}

/** The text with one client more, the last one. It joins later where that is wanted, or where another one does. */
export function withClient(text, outline, isLate) {
  const counts = countsOf(text, outline);
  if (counts === null || counts.clients >= MOST) return text;
  const { clients, present } = counts;
  return withCounts(text, outline, { clients: clients + 1, present: isLate || present < clients ? present : clients + 1 });
}

/* A line where a client is left out: none of that client's, and the clients behind it have the number before. */
function lineWithout(raw, client) {
  const line = trimmed(raw);
  const pattern = NAME.test(line) ? /^(;[ \t]*client[ \t]+)(\d{1,9})/ : OF_CLIENT;
  const number = Number(pattern.exec(line)?.[2] ?? NaN);
  if (number === client) return [];
  return [number > client ? line.replace(pattern, (_, front) => `${front}${number - 1}`) : raw];
}

/** The text without a client, its instructions and its name. */
export function withoutClient(text, outline, client) {
  const counts = countsOf(text, outline);
  if (counts === null || counts.clients < 2 || client >= counts.clients) return text;
  const { clients, present } = counts;
  const left = text.split("\n").flatMap((raw) => lineWithout(raw, client)).join("\n");
  return withCounts(left, outlineOf(left), { clients: clients - 1, present: client < present ? present - 1 : present });
}

/** The text in which the last client that is there at the opening joins later: before its first instruction, where it has one. */
export function withOneLate(text, outline) {
  const counts = countsOf(text, outline);
  if (counts === null || counts.present === 0) return text;
  const client = counts.present - 1;
  const lines = text.split("\n");
  const first = outline.lines.find((line) => clientOf(lines[line]) === client);
  if (first !== undefined) lines.splice(first, 0, `join ${client}`);
  return withCounts(lines.join("\n"), outline, { ...counts, present: client });
}

/** The text in which the first client that joins later is there at the opening. */
export function withOnePresent(text, outline) {
  const counts = countsOf(text, outline);
  if (counts === null || counts.present === counts.clients) return text;
  const isJoin = (raw) => /^join(?![^ \t])/.test(trimmed(raw)) && clientOf(raw) === counts.present;
  const left = text.split("\n").filter((raw) => !isJoin(raw)).join("\n");
  return withCounts(left, outlineOf(left), { ...counts, present: counts.present + 1 });
}

/** The text with the instruction that led to a place at another place. */
export function withMoved(text, outline, from, to) {
  const lines = text.split("\n");
  const [moved] = lines.splice(lineOfPlace(outline, from), 1);
  const left = lines.join("\n");
  lines.splice(lineOfPlace(outlineOf(left), to - 1) + 1, 0, moved);
  return lines.join("\n");
}
