/** A page with the engine in it: it opens from a file, and asks nothing of a network. */
import fs from "node:fs";

const HOST = fs.readFileSync(new URL("../host.mjs", import.meta.url), "utf8");

/**
 * What the page does: it runs the schedule that it shows, in itself and in a worker. In Chromium a page that is opened from a file has no workers that are
 * modules.
 */
const SCRIPT = `
const encoder = new TextEncoder();
const decoder = new TextDecoder();
const show = ({ status, output, errors }) => "status " + status + "\\n" + decoder.decode(output) + decoder.decode(errors);
const tell = (where, text) => (document.getElementById(where).textContent = text);
const packed = Uint8Array.from(atob(document.getElementById("engine").textContent), (character) => character.charCodeAt(0));
const input = encoder.encode(document.getElementById("schedule").value);
const engine = await WebAssembly.compile(packed);
tell("here", show(serve(engine, ["run"], input)));
const source = document.getElementById("program").textContent.replaceAll(/^export /gm, "") + "onmessage = ({ data }) => postMessage(serve(...data));";
const worker = new Worker(URL.createObjectURL(new Blob([source], { type: "text/javascript" })));
worker.onmessage = ({ data }) => tell("there", show(data));
worker.onerror = ({ message }) => tell("there", "no worker: " + message);
worker.postMessage([engine, ["run"], input]);
`;

/**
 * @param {Uint8Array} engine the engine's file
 * @param {string} schedule
 */
export function pageOf(engine, schedule) {
    return `<!doctype html>
<meta charset="utf-8">
<title>otbench</title>
<textarea id="schedule">${schedule.replaceAll("&", "&amp;").replaceAll("<", "&lt;")}</textarea>
<pre id="here"></pre>
<pre id="there"></pre>
<script type="text/plain" id="engine">${Buffer.from(engine).toString("base64")}</script>
<script type="text/plain" id="program">${HOST}</script>
<script type="module">${HOST}${SCRIPT}</script>
`;
}
