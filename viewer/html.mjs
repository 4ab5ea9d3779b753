/* Puts the parts of the page together. */

import crypto from "node:crypto";
import fs from "node:fs";
import path from "node:path";
import { fileURLToPath } from "node:url";
import { oneScript } from "../npm/release/modules.mjs";

const source = fileURLToPath(new URL("src", import.meta.url));
const read = (name) => fs.readFileSync(path.join(source, name), "utf8");

/* In a script element of data "<" is written so that no text ends the element. */
const asData = (value) => JSON.stringify(value).replaceAll("<", "\\u003c");

const POLICY = (script) =>
  [
    "default-src 'none'",
    `script-src 'sha256-${crypto.createHash("sha256").update(script).digest("base64")}' 'wasm-unsafe-eval'`,
    "worker-src blob:",
    "img-src blob:",
    "style-src 'unsafe-inline'",
    "base-uri 'none'",
    "form-action 'none'",
  ].join("; ");

/* A script without the lines that are comments: a reader finds them in the sources. */
const bare = (script) => script.replace(/^[ \t]*\/\*[^]*?\*\/[ \t]*\n/gm, "").replace(/^[ \t]*\/\/.*\n/gm, "");

/**
 * The page; with an engine, { host, module }, the file of its host and the bytes of its module as base64 of gzip, and with examples.
 */
export function page(engine = null, examples = []) {
  const script = `\n${bare(oneScript("viewer/src/page.mjs"))}`;
  const worker = engine ? workerScript(engine.host) : "";
  const put = (text, mark, value) => text.replace(mark, () => value);
  let html = read("page.html");
  html = put(html, "/* the policy */", POLICY(script));
  html = put(html, "/* the style */\n", read("style.css"));
  html = put(html, "/* the examples */", asData(examples));
  html = put(html, "/* the worker */\n", worker);
  html = put(html, "/* the module */", engine ? engine.module : "");
  return put(html, "/* the script */", script);
}

/* The worker's script, over a host that lies elsewhere. */
function workerScript(host) {
  const script = bare(oneScript("viewer/src/worker.mjs", { "engine/host.mjs": () => fs.readFileSync(host, "utf8") }));
  if (/<\/script|<!--/i.test(script)) throw new Error("the worker's script ends its element");
  return script;
}
