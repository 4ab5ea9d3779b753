/* What the command says below an answer of status 2: what may be meant. The program's help and its faults of words, of which it has no data, are read here alone. */

import { FILES, formOf, isFile, readFile } from "./files.mjs";
import { kindOf } from "./kinds.mjs";
import { fileWord, quoted } from "./shell.mjs";
import { textOf } from "../common/text.mjs";

/** @typedef {(words: string[], input: Uint8Array) => import("../npm/otbench.mjs").Answer} Ask */

const NOTHING = new Uint8Array(0);

/* The longest word that a hint says again. */
const LONGEST = 200;

/* What the program says on these words; it refuses them before it reads anything. */
const saidOn = (ask, words) => textOf(ask(words, NOTHING).errors);

/** The program's help on words. @param {string[]} words @param {Ask} ask */
export const helpOn = (words, ask) => saidOn(ask, ["help", ...words]);

/** Whether it has none: that has the same status. @param {string} said */
export const isRefusal = (said) => said.startsWith("error:");

/** The subcommands of the program, but for help. @param {Ask} ask @returns {string[]} */
export const subcommandsOf = (ask) => /\[subcommands: (.*), help\]/.exec(saidOn(ask, []))[1].split(", ");

/** The subcommands that this command adds. */
export const OWN = ["view", "edit", "merge", "port", "completion", "version"];

/* The options of a subcommand, by its help: each, and whether it has a value. */
const optionRows = (word, ask) => [...helpOn([word], ask).matchAll(/^ *(?:-h, )?(--[a-z]+)( <)?/gm)];

/** The options of a subcommand of the program. @param {string} word @param {Ask} ask @returns {string[]} */
export const optionsOf = (word, ask) => optionRows(word, ask).map(([, option]) => option);

/* The program's tip on words that it refuses: one that is like them. */
const tipOn = (words, ask) => /^ *tip: (.*)$/m.exec(saidOn(ask, words))?.[1] ?? null;

/* The subcommands that have an option. */
const ownersOf = (option, ask) => subcommandsOf(ask).filter((word) => optionsOf(word, ask).includes(option));

const listed = (names) => names.join(", ").replace(/, ([^,]*)$/, " and $1");

const FURTHER = new Map([["--image", "; dis prints an image's text"]]);

/* Of an option that is another subcommand's, that is not needed, or that is none. */
function ofOption(word, words, ask) {
  const [option] = words.findLast((it) => it.startsWith("-") && it !== "-")?.split("=") ?? [];
  if (option === undefined || optionsOf(word, ask).includes(option)) return [];
  if (option === `--${formOf(word, [])}`) return [`${word} needs no ${option}`];
  const owners = ownersOf(option, ask);
  if (owners.length > 0) return [`${option} is an option of ${listed(owners)}${FURTHER.get(option) ?? ""}`];
  return tipOn([word, option], ask) === null ? [`the options of ${word} are ${optionsOf(word, ask).join(" ")}`] : [];
}

/* A word of `generate` that is no option's value. */
const ofStray = (word, name) =>
  /^\d+$/.test(word) ? `a number stands behind its option: ${name} generate --instructions ${word}` : `generate reads no file; to write one: ${name} generate > ${fileWord(word)}`;

/* A value that begins with '-'. The program says what the option takes. */
function ofValue(option, value, words, ask) {
  if (option === "--start") return [`a text that begins with '-' stands behind '=': --start=${quoted(value)}`];
  const every = words.filter((word) => word === "--every").slice(0, 1);
  const takes = /: it takes (.*)/.exec(saidOn(ask, ["generate", ...every, `${option}=${value}`]))?.[1];
  return takes === undefined ? [] : [`${option} takes ${takes}, without a sign`];
}

function ofGenerate(words, name, ask) {
  const valued = optionRows("generate", ask).filter(([, , value]) => value).map(([, option]) => option);
  for (let i = 0; i < words.length; i++) {
    const [word, value] = [words[i], words[i + 1]];
    if (!word.startsWith("-")) return [ofStray(word, name)];
    if (!valued.includes(word)) continue;
    if (value?.startsWith("-")) return ofValue(word, value, words, ask);
    i++;
  }
  return [];
}

const allSubcommands = (ask) => `the subcommands are ${[...subcommandsOf(ask), ...OWN].join(", ")}, help`;

const READERS = { image: "run --image", trace: "judge", plan: "threads" };

/* Of a word that is no subcommand. */
function ofCommand(word, name, ask) {
  if (isFile(word)) return [`a command stands in front of a file: ${name} ${READERS[kindOf(readFile(word, ["lines"]), null)] ?? "run"} ${fileWord(word)}`];
  return tipOn([word], ask) === null ? [allSubcommands(ask)] : [];
}

/** Of a word that is no subcommand, which help was asked for. @param {string} word @param {Ask} ask */
export const similarTo = (word, ask) => tipOn([word], ask) ?? allSubcommands(ask);

/**
 * What may be meant by words that the program has refused: a line, or none.
 * @param {string[]} words
 * @param {{ name: string, ask: Ask }} how the command's name for the shell, and the program
 * @returns {string[]}
 */
export function meant([word = "", ...words], { name, ask }) {
  if (word === "" || word.startsWith("-") || [word, ...words].some((it) => it === "-h" || it === "--help" || it.length > LONGEST)) return [];
  if (word === "generate") return ofGenerate(words, name, ask);
  return Object.hasOwn(FILES, word) ? ofOption(word, words, ask) : ofCommand(word, name, ask);
}
