/*
 * One script of several modules. Each becomes a function that gives what it exports; they stand in the order in which they need one another:
 *
 *     const npm_text_mjs = (() => { .. return { bytesOf, .. }; })();
 */

import fs from "node:fs";
import path from "node:path";
import { fileURLToPath } from "node:url";

export const TOP = fileURLToPath(new URL("../..", import.meta.url));

const IMPORT = /^import (?:(\w+)|(\{[^}]*\})) from "([^"]+)";\n/gm;
const LATER = /await import\("(\.[^"]+)"\)/g; // of a module that is read when it is wanted; here it is there
const EXPORT = /^export (?=(?:async )?(?:function\*?|class|const) (\w+))/gm;

const resolved = (from, name) => path.posix.join(path.posix.dirname(from), name);
const nameOf = (file) => file.replace(/\W/g, "_");

const read = (file) => fs.readFileSync(path.join(TOP, file), "utf8");

/* A module as a function's body; what it imports has come before. */
function bodyOf(file, source, add) {
  const names = [];
  const body = source
    .replace(/^#!.*\n/, "")
    .replace(IMPORT, (_, whole, some, from) => {
      if (from.startsWith("node:")) return `const ${whole ?? some.replaceAll(" as ", ": ")} = require("${from}");\n`;
      add(resolved(file, from));
      return `const ${some.replaceAll(" as ", ": ")} = ${nameOf(resolved(file, from))};\n`;
    })
    .replace(LATER, (_, from) => {
      add(resolved(file, from));
      return nameOf(resolved(file, from));
    })
    .replace(EXPORT, (_, name) => {
      names.push(name);
      return "";
    });
  if (/^(?:import|export)\b/m.test(body)) throw new Error(`${file} imports or exports in a form that is not bundled`);
  return `const ${nameOf(file)} = (() => {\n${body}\nreturn { ${names.join(", ")} };\n})();\n`;
}

/**
 * A module and all that it needs as one script.
 * @param {string} entry its path from the top of the repository
 * @param {Record<string, () => string>} [others] by their paths the texts of modules that stand in the place of those that lie there
 */
export function oneScript(entry, others = {}) {
  const done = new Set();
  const bodies = [];
  function add(file) {
    if (done.has(file)) return;
    done.add(file);
    bodies.push(bodyOf(file, Object.hasOwn(others, file) ? others[file]() : read(file), add));
  }
  add(entry);
  return bodies.join("");
}
