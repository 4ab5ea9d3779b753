/* The options of otbench/testing, each checked by its name before anything runs. */

import { NEEDED_KEYS } from "./compared.mjs";
import { OtbenchError } from "../npm/errors.mjs";
import { LAW_NAMES } from "./laws.mjs";
import { MOST_EDITS } from "./small.mjs";

const whole = (least, most) => ({
  takes: `a whole number from ${least} to ${most.toLocaleString("en")}`,
  has: (value) => Number.isInteger(value) && value >= least && value <= most,
});

const ACCESSOR_NAMES = ["revision", "outstanding", "buffer", "document", "operations"];

const isOneOf = (names) => (name) => names.includes(name);

const TRUTH = { takes: "true or false", has: (value) => typeof value === "boolean" };
const TEXT = { takes: "a string", has: (value) => typeof value === "string" };
const ACCESSORS = {
  takes: `an object of functions, of ${ACCESSOR_NAMES.join(", ")}`,
  has: (value) =>
    value !== null && typeof value === "object" && Object.keys(value).every(isOneOf(ACCESSOR_NAMES)) && Object.values(value).every((it) => typeof it === "function"),
};

const DRIVE = { utf16: TRUTH, accessors: ACCESSORS };

const RANDOM = {
  sessions: whole(1, 1_000_000),
  seed: whole(0, 999_999_999),
  clients: whole(1, 64),
  present: whole(0, 64),
  instructions: whole(0, 100_000),
  start: TEXT,
  open: TRUTH,
};

const isKind = (value) => typeof value === "string" && /^.+: ./.test(value);
const listOf = (isOne) => (value) => Array.isArray(value) && value.every(isOne);
const FUNCTION = { has: (value) => typeof value === "function" };
const FILE = { takes: "the path of a file", has: (value) => typeof value === "string" && value !== "" };

const CONFORMS = {
  ...DRIVE,
  ...RANDOM,
  corpus: TRUTH,
  every: whole(0, MOST_EDITS),
  seconds: { takes: "a number of seconds above 0, to 1,000,000", has: (value) => Number.isFinite(value) && value > 0 && value <= 1_000_000 },
  reduceSeconds: { takes: "a number of seconds, 0 to 1,000,000", has: (value) => Number.isFinite(value) && value >= 0 && value <= 1_000_000 },
  all: TRUTH,
  known: {
    takes: `a list of laws, of ${LAW_NAMES.join(", ")}, and of kinds of failures, as the option all names them`,
    has: listOf((value) => isOneOf(LAW_NAMES)(value) || isKind(value)),
  },
  need: { takes: `a list of keys, of ${NEEDED_KEYS.join(", ")}`, has: listOf(isOneOf(NEEDED_KEYS)) },
  saveTo: FILE,
  onSession: { ...FUNCTION, takes: "a function of what became of a session" },
  signal: { takes: "an AbortSignal", has: (value) => value instanceof AbortSignal },
  tap: { ...FUNCTION, takes: "a function of a line" },
  junit: FILE,
};

/* A value for the eye: text in quotes, the rest as it is written. */
const shown = (value) => (typeof value === "string" ? JSON.stringify(value) : typeof value === "object" ? (JSON.stringify(value) ?? "an object") : String(value));

/* Throws where an option is none of the table, or has a value that it does not take. One that is undefined is left out. */
function check(name, table, options) {
  if (options === null || typeof options !== "object") throw new OtbenchError("Usage", `${name} takes its options as an object, such as { seed: 7 }`);
  for (const [option, value] of Object.entries(options)) {
    if (!Object.hasOwn(table, option))
      throw new OtbenchError("Usage", `${name} has no option ${option}; its options: ${Object.keys(table).join(", ")}`);
    const { takes, has } = table[option];
    if (value !== undefined && !has(value)) throw new OtbenchError("Usage", `${option} is ${shown(value)}; it takes ${takes}`);
  }
  return options;
}

export const driveOptions = (name, options) => check(name, DRIVE, options);
export const randomOptions = (options) => check("random", RANDOM, options);
export const conformsOptions = (options) => check("conforms", CONFORMS, options);

/** What an option of `conforms` takes, and whether a value is that. @param {string} name */
export const optionOf = (name) => CONFORMS[name];

/** Those of the options that `random` takes. */
export const ofRandom = (options) => Object.fromEntries(Object.keys(RANDOM).flatMap((name) => (options[name] === undefined ? [] : [[name, options[name]]])));
