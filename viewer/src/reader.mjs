// What a file or a paste is: a schedule, its image, lines of `otbench steps` or of a port, a log of the recorder, a trace, or a plan.

import { splitInput, trimmed } from "../../common/input.mjs";
import { valueIn } from "../../common/json.mjs";
import { outlineOf } from "../../common/outline.mjs";

const isObject = (value) => Boolean(value) && typeof value === "object" && !Array.isArray(value);

/**
 * @param {Uint8Array} bytes
 * @returns {{ kind: "image" } | { kind: "bad", reason: string } | { kind: "trace" | "plan" | "schedule" | "other" | "lines" | "log", text: string }}
 */
export function kindOf(bytes) {
  const magic = String.fromCharCode(...bytes.subarray(0, 4));
  if (/^OTS[12]$/.test(magic)) return { kind: "image" };
  let text;
  try {
    text = new TextDecoder("utf-8", { fatal: true }).decode(bytes);
  } catch {
    return { kind: "bad", reason: "it is not text in UTF-8, and no image of a schedule" };
  }
  const first = text.trimStart()[0];
  if (first === undefined) return { kind: "bad", reason: "it is empty" };
  if (first !== "{") return outlineOf(text.replace(/^\ufeff/, "")).opening ? { kind: "schedule", text } : { kind: "other", text };
  const whole = valueIn(text);
  if (isObject(whole) && "events" in whole) return { kind: "trace", text };
  if (isObject(whole) && "typing" in whole) return { kind: "plan", text };
  const line = valueIn(splitInput(text).steps[0] ?? "");
  if (isObject(line) && Number.isInteger(line.at)) return { kind: "lines", text };
  if (isObject(line) && typeof line.who === "string" && Number.isInteger(line.n)) return { kind: "log", text };
  return { kind: "bad", reason: "it begins as JSON does, and is no trace, no plan, no log of the recorder, and no lines of otbench steps or of a port" };
}

/** A schedule's text, and what stands behind its first line %%: { schedule, port }, port null where there is no such line. */
export function splitSchedule(text) {
  const lines = text.replace(/^\ufeff/, "").split("\n");
  const mark = lines.findIndex((line) => trimmed(line) === "%%");
  if (mark < 0) return { schedule: lines.join("\n"), port: null };
  return { schedule: `${lines.slice(0, mark).join("\n")}\n`, port: splitInput(lines.slice(mark).join("\n")).port };
}

/** The instruction that a line of steps has, null where it has none. */
function instructionOf({ do: word, client, edit }) {
  if (typeof word !== "string" || !/^[a-z-]+$/.test(word)) return null;
  if (client !== undefined && !Number.isInteger(client)) return null;
  return [word, ...(client === undefined ? [] : [client]), ...(edit === undefined ? [] : [JSON.stringify(edit)])].join(" ");
}

/**
 * The schedule that lines have, as { opening, instructions }; null where they do not begin with an opening.
 * @param {string[]} lines
 */
export function scheduleOf(lines) {
  const [opening, ...others] = lines.map(valueIn);
  if (!isObject(opening) || !Number.isInteger(opening.clients) || typeof opening.start !== "string") return null;
  const { clients, present = clients, start } = opening;
  if (!Number.isInteger(present)) return null;
  const head = [`clients ${clients}`];
  if (present !== clients) head.push(`present ${present}`);
  if (start !== "") head.push(`start ${JSON.stringify(start)}`);
  const instructions = [];
  for (const line of others) {
    const instruction = isObject(line) ? instructionOf(line) : null;
    if (instruction === null) break;
    instructions.push(instruction);
  }
  return { opening: head, instructions };
}

export const textOfSchedule = ({ opening, instructions }) => `${[...opening, ...instructions].join("\n")}\n`;
