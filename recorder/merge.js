/*
 * `otbench merge`: makes one schedule of the recorder's logs, and behind a line %% the participants' own lines.
 *
 *     otbench merge server.log ann.log ben.log | otbench view > session.html
 *     otbench merge server.log ann.log ben.log > session.ots
 *
 * Each file holds lines of one participant or of several.
 */

import { parseArgs } from "node:util";
import { readFile } from "../command/files.mjs";
import { complain, print } from "../command/streams.mjs";
import { decode, withoutHalf } from "./files.js";
import { readEvents } from "./logs.js";
import { merge } from "./merging.js";

export const USAGE = `usage: otbench merge [--schedule] LOG ..
Prints the session of the recorder's logs, of the server and of the clients: its schedule, and behind a line '%%' what the
participants had; with --schedule the schedule alone.
`;

/* A file's events, and where its last line is half. */
function readLog(file) {
  const bytes = readFile(file, ["log"]);
  const { whole, cut } = withoutHalf(bytes, file);
  return { events: readEvents(decode(whole, file), file), cut };
}

/* Prints the session of these logs. Whether it could be printed. */
function printMerged(files, isAlone) {
  const twice = files.find((file, i) => files.indexOf(file) < i);
  if (twice !== undefined) throw new Error(`${twice} is named twice`);
  const logs = files.map(readLog);
  const { schedule, lines, notes, fault } = merge(logs.flatMap(({ events }) => events), logs.flatMap(({ cut }) => cut ?? []));
  const isPrinted = print(`${(isAlone ? schedule : [...schedule, "%%", ...lines]).join("\n")}\n`);
  for (const note of notes) complain(`merge: ${note}\n`);
  if (fault) throw new Error(fault);
  return isPrinted;
}

/**
 * The whole subcommand. Answers its status: 0; 1 where a log cannot be used, or the schedule ends before the logs do, which standard error says and the last line of
 * what is printed, and where the output cannot be written; 2 where words are not understood.
 * @param {string[]} words
 */
export function mergeLogs(words) {
  let asked;
  try {
    asked = parseArgs({ args: words, options: { schedule: { type: "boolean" } }, allowPositionals: true });
    if (asked.positionals.length === 0) throw new Error("a log is missing");
  } catch (fault) {
    complain(`merge: ${fault.message.split(". ")[0]}\n${USAGE}`); // behind that node's message has advice for words of any command
    return 2;
  }
  try {
    return printMerged(asked.positionals, asked.values.schedule) ? 0 : 1;
  } catch (fault) {
    complain(`merge: ${fault.message}\n`);
    return 1;
  }
}
