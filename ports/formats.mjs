/* What a run says: as test points of the Test Anything Protocol, or as JUnit's XML. */

import { writeFileSync } from "node:fs";
import { kindOf, saidOf } from "./verdict.mjs";
import { fewLines, inOneLine } from "./report.mjs";

/**
 * @typedef {object} Format is told what happens, each where it has a method for it
 * @property {(round: import("./trying.mjs").Round) => void} [begin]
 * @property {(round: import("./trying.mjs").Round, name: string, verdict: import("./verdict.mjs").Verdict, isKnown: boolean) => void} [session]
 * @property {(round: import("./trying.mjs").Round, count: number, conforming: number) => void} [round] where it was tried whole
 * @property {(failure: { kind: string, sessions: number, error: Error }) => void} [failure] reduced
 * @property {(law: string, said: string | null) => void} [law] what is wrong with it
 * @property {(wrong: string[], compared: import("./compared.mjs").Compared, known: Record<string, number>, untried: string[]) => void} [end] with the lines about small sessions that were not tried
 */

/** What is said of a round: how many sessions it has, and how many conform. @param {import("./trying.mjs").Round} round */
export function toldRound({ heading, stage }, count, conforming) {
  const number = count.toLocaleString("en");
  const all = stage ? number : `${number} ${count === 1 ? "session" : "sessions"}`;
  return `${heading}: ${conforming === count ? all : `${conforming.toLocaleString("en")} of ${all}`} ${conforming === count && count === 1 ? "conforms" : "conform"}`;
}

const AT_THE_END = "what is needed was compared, and the driver ended well";

/** What is said behind the sessions: how often each known kind came, what was compared, and what was not tried. */
export function closing(compared, known, untried) {
  const those = Object.entries(known).map(([kind, count]) =>
    count === 0 ? `known, and no longer there: ${kind}` : `known: ${kind}: ${count} ${count === 1 ? "session" : "sessions"}`);
  return [...those, compared.line(), ...untried];
}

const linesIn = (text) => text.trimEnd().split("\n");

/* How a session failed, in lines. */
const failedLines = (verdict) => fewLines(saidOf(verdict) || kindOf(verdict));

/* Of the failures in a stage of small sessions the first, and the first that is not known. */
class Stage {
  first = null;
  unknown = null;

  add(verdict, isKnown) {
    if (!verdict.fails) return;
    this.first ??= verdict;
    if (!isKnown) this.unknown ??= verdict;
  }
}

/**
 * A test point for each session and law, and for each stage of small sessions, one for the run as a whole, and all else in comments.
 * @param {(line: string) => void} print
 * @returns {Format}
 */
export function tap(print) {
  let count = 0;
  const comment = (text) => linesIn(text).forEach((line) => print(`# ${line}`));
  const point = (isOk, name, directive = "") =>
    print(`${isOk ? "ok" : "not ok"} ${++count} - ${inOneLine(name).replace(/[\\#]/g, "\\$&")}${directive}`);
  const block = (lines) => ["  ---", "  said: |", ...lines.map((line) => `    ${line}`), "  ..."].forEach((line) => print(line));
  const judged = (name, failed, isKnown) => {
    point(failed === null, name, isKnown ? ` # TODO known: ${kindOf(failed)}` : "");
    if (failed) block(failedLines(failed));
  };
  let small = null;
  print("TAP version 13");
  return {
    begin: ({ stage }) => (small = stage ? new Stage() : null),
    session(round, name, verdict, isKnown) {
      if (small) small.add(verdict, isKnown);
      else judged(name, verdict.fails ? verdict : null, isKnown);
    },
    round(round, tried, conforming) {
      if (small) judged(toldRound(round, tried, conforming), small.unknown ?? small.first, small.first !== null && small.unknown === null);
    },
    law(law, said) {
      point(said === null, `law ${law}`);
      if (said !== null) block(fewLines(said));
    },
    failure: ({ kind, sessions, error }) => comment(`${kind}: ${sessions}\n${error.message}`),
    end(wrong, compared, known, untried) {
      point(wrong.length === 0, AT_THE_END);
      [...closing(compared, known, untried), ...wrong].forEach(comment);
      print(`1..${count}`);
    },
  };
}

const ENTITIES = { "&": "&amp;", "<": "&lt;", ">": "&gt;", '"': "&quot;", "\n": "&#10;", "\t": "&#9;", "\r": "&#13;" };

/* A text in XML. Characters that it cannot say stand as JSON escapes them. */
const escaped = (text) =>
  text
    .replace(/[^\t\n\r\x20-\ud7ff\ue000-\ufffd\u{10000}-\u{10ffff}]/gu, (it) => `\\u${it.codePointAt(0).toString(16).padStart(4, "0")}`)
    .replace(/[&<>\r]/g, (it) => ENTITIES[it]);

/* The same between quotes. */
const quoted = (text) => escaped(text).replace(/["\t\n]/g, (it) => ENTITIES[it]);

const attributes = (values) => Object.entries(values).map(([name, value]) => ` ${name}="${quoted(String(value))}"`).join("");

const element = (name, values, content = "") => (content === "" ? `<${name}${attributes(values)}/>` : `<${name}${attributes(values)}>${content}</${name}>`);

/**
 * A test case for each session and law, and for each stage of small sessions, and one for the run as a whole, in a file.
 * @param {string} file
 * @returns {Format}
 */
export function junit(file) {
  const cases = [];
  const counts = { tests: 0, failures: 0, skipped: 0 };
  const said = [];
  const add = (classname, name, outcome = "", key = null) => {
    counts.tests++;
    if (key) counts[key]++;
    cases.push(element("testcase", { classname, name }, outcome));
  };
  const failure = (lines, type) => element("failure", { message: lines[0], ...(type && { type }) }, escaped(lines.join("\n")));
  const judged = (heading, name, failed, isKnown) => {
    if (isKnown) add(heading, name, element("skipped", { message: `known: ${kindOf(failed)}` }), "skipped");
    else if (failed) add(heading, name, failure(failedLines(failed), kindOf(failed)), "failures");
    else add(heading, name);
  };
  let small = null;
  return {
    begin: ({ stage }) => (small = stage ? new Stage() : null),
    session({ heading }, name, verdict, isKnown) {
      if (small) small.add(verdict, isKnown);
      else judged(heading, name, verdict.fails ? verdict : null, isKnown);
    },
    round(round, tried, conforming) {
      if (small) judged("small sessions", toldRound(round, tried, conforming), small.unknown ?? small.first, small.first !== null && small.unknown === null);
    },
    law: (law, what) => (what === null ? add("laws", law) : add("laws", law, failure(fewLines(what), law), "failures")),
    failure: ({ kind, sessions, error }) => said.push(`${kind}: ${sessions}`, error.message),
    end(wrong, compared, known, untried) {
      if (wrong.length > 0) add("the run", AT_THE_END, failure(wrong), "failures");
      else add("the run", AT_THE_END);
      said.push(...closing(compared, known, untried), ...wrong);
      const suite = element("testsuite", { name: "conformance", ...counts }, [...cases, element("system-out", {}, escaped(said.join("\n")))].join("\n"));
      try {
        writeFileSync(file, `<?xml version="1.0" encoding="UTF-8"?>\n${suite}\n`);
      } catch (fault) {
        wrong.push(`the report could not be written: ${fault.message}`);
      }
    },
  };
}
