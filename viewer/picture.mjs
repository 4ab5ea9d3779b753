#!/usr/bin/env node
// Draws the diagram of lines of `otbench steps` as SVG. Status 1 where the input is none of these or the output cannot be
// written; 2 for words that are not understood, and for help.

import fs from "node:fs";
import { parseArgs } from "node:util";
import { picture } from "./src/diagram.mjs";
import { fold } from "../common/fold.mjs";
import { splitInput } from "../common/input.mjs";
import { rowCount } from "./src/layout.mjs";

const USAGE = `usage: node viewer/picture.mjs [--at PLACE] [--dark] < LINES > PICTURE
Draws a session, of lines of 'otbench steps', as SVG; at the place behind so many instructions, 0 without --at.`;

class WordsFault extends Error {}

function main() {
  const options = { at: { type: "string", default: "0" }, dark: { type: "boolean" }, help: { type: "boolean", short: "h" } };
  const { values } = parseArgs({ options });
  if (values.help) return void console.log(USAGE);
  if (!/^\d+$/.test(values.at)) throw new WordsFault(`--at takes a number, not '${values.at}'`);
  const session = fold(splitInput(fs.readFileSync(0, "utf8")).steps);
  const place = Number(values.at);
  if (place > session.length) throw new WordsFault(`--at takes 0 to ${session.length} in this session, not ${values.at}`);
  const view = { from: 0, to: rowCount(session) - 1, place, followed: null, port: null };
  process.stdout.write(picture(session, view, values.dark ? "dark" : "light"));
}

function fail(fault) {
  const isOfWords = fault instanceof WordsFault || /^ERR_PARSE_ARGS/.test(fault.code);
  if (isOfWords) console.error(USAGE);
  console.error(`picture: ${fault.message}`);
  process.exitCode = isOfWords ? 2 : 1;
}

process.stdout.on("error", fail);
try {
  main();
} catch (fault) {
  fail(fault);
}
