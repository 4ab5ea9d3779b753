/* A session of live editors in Chromium, recorded, merged and replayed. */

import assert from "node:assert/strict";
import fs from "node:fs";
import http from "node:http";
import path from "node:path";
import { after, before, test } from "node:test";
import { fileURLToPath } from "node:url";
import { makePort } from "../../oracle/otjs.js";
import { drive } from "../../oracle/scalars.js";
import { openChromium } from "../../viewer/browser/chromium.js";
import { wait } from "../../viewer/browser/driver.js";
import { otbench, pageOf } from "../../viewer/browser/otbench.js";
import { readEvents } from "../logs.js";
import { merge } from "../merging.js";

const TOP = fileURLToPath(new URL("../..", import.meta.url));
const CODEMIRROR = "/usr/share/javascript/codemirror/";
const TYPES = { ".html": "text/html", ".js": "text/javascript", ".css": "text/css" };

/* Serves the repository and CodeMirror to this machine: a browser takes no module from a file. */
const server = http.createServer((request, response) => {
  const { pathname } = new URL(request.url, "http://localhost");
  const file = pathname.startsWith(CODEMIRROR) ? pathname : path.join(TOP, pathname);
  if (!fs.existsSync(file)) {
    response.writeHead(404).end();
    return;
  }
  response.setHeader("content-type", TYPES[path.extname(file)] ?? "text/plain");
  response.end(fs.readFileSync(file));
});

let page;
before(async () => {
  await new Promise((resolve) => server.listen(0, "127.0.0.1", resolve));
  page = await openChromium();
});
after(async () => {
  await page.close();
  server.closeAllConnections();
  server.close();
});

/* Runs the session, with real keys into ann's editor meanwhile, and gives the documents at its end and its log. */
async function runLive(fault = "", last = "") {
  page.exceptions.length = 0;
  await page.goto(`http://127.0.0.1:${server.address().port}/recorder/browser/live.html${fault}`);
  const going = page.run("runSession()");
  await page.run("ann.mirror.focus(); ann.mirror.setCursor(0, 3);");
  for (const character of "typed by hand") {
    await page.type(character);
    await wait(15);
  }
  await page.key("Enter");
  await going;
  if (last) await page.run(last);
  const documents = await page.run("settled()");
  return { documents, merged: merge(readEvents(await page.run('lines.join("\\n")'), "log")) };
}

/* The lines of `otbench run` at the end, as [who, document]. */
function endsOf(schedule) {
  const lines = otbench(["run"], schedule).matchAll(/^(client \d+|server) rev \d+ (?:synchronized )?(".*")$/gm);
  return Array.from(lines, ([, who, text]) => [who, JSON.parse(text)]);
}

/* The first of the participants' values that ot.js has not, where the schedule is performed. */
function firstDifference({ schedule, lines }) {
  const ours = drive(schedule.join("\n"), makePort()).map((line) => JSON.parse(line));
  for (const [i, line] of lines.map((text) => JSON.parse(text)).entries()) {
    const key = Object.keys(line).find((name) => JSON.stringify(line[name]) !== JSON.stringify(ours[i][name] ?? null));
    if (key) return [line.do, key];
  }
  return null;
}

test("the documents of the page and of the bench are the same", async () => {
  const { documents, merged } = await runLive();
  assert.deepEqual([page.exceptions, merged.fault, merged.notes], [[], null, []]);
  assert.ok(merged.schedule.includes("join 2"), "cleo joined late");
  assert.ok(merged.schedule.length > 120, "a session of some length");
  assert.ok(merged.schedule.some((line) => /^edit 0 .*"h"/.test(line)), "what was typed by hand is there");
  const who = ["client 0", "client 1", "client 2", "server"];
  assert.deepEqual(endsOf(merged.schedule.join("\n")), who.map((name, i) => [name, documents[i]]));
  assert.equal(firstDifference(merged), null, "at each event, what each participant had");
});

test("the recorded session, looked at", async () => {
  const { documents, merged } = await runLive();
  await page.goto(pageOf("live", merged.schedule.join("\n")));
  await page.key("End");
  const shown = await page.run(`[...document.querySelectorAll(".document")].map((text) =>
    [...text.querySelectorAll("span:not(.deleted)")].map((run) => run.textContent).join(""))`);
  assert.deepEqual(shown, [documents[3], documents[0], documents[1], documents[2]]);
});

test("an adapter that deletes too much is found in its document", async () => {
  const { merged } = await runLive("#adapter");
  const difference = firstDifference(merged);
  if (difference?.[1] !== "cut") assert.deepEqual(difference, ["deliver", "document"]);
  else assert.match(merged.fault, /^(ann|ben), event \d+ \(log, line \d+\): deliver leaves half of a surrogate pair/);
});

test("an edit that cuts a character in two is named", async () => {
  const change = 'ben.mirror.setValue("😀" + ben.mirror.getValue()); ben.mirror.setValue("😁" + ben.mirror.getValue().slice(2));';
  const { merged } = await runLive("#careless", change);
  assert.match(merged.fault, /^(ann|ben|cleo), event \d+ \(log, line \d+\): edit \[.*\] \(UTF-16 units\) (cuts the surrogate pair|inserts half)/);
});
