// The page is one file, made of the parts.

import assert from "node:assert/strict";
import { test } from "node:test";
import * as viewer from "../html.mjs";

const page = viewer.page();
const host = new URL("../../engine/host.mjs", import.meta.url);

test("the page asks for nothing else", () => {
  assert.doesNotMatch(page, /^(import|export) |<link|<script[^>]* src|@import|fetch\(|XMLHttpRequest/m);
  assert.deepEqual(page.match(/https?:[^"`]*/g), ["http" + "://www.w3.org/2000/svg"]);
});

test("until its script has run the page says that it starts, and nothing else", () => {
  const shown = [...page.slice(page.indexOf("<body>")).matchAll(/^<(?!script|pre|dialog|div|input)(\w+) id="(\w+)"(?![^>]* hidden)/gm)].map(([, , id]) => id);
  assert.deepEqual(shown, ["starting"]);
  assert.match(page, /<p id="starting" role="status">Starting …<\/p>/);
});

test("each element that the script names is there", () => {
  for (const [, id] of page.matchAll(/element\("([a-z-]+)"\)/g)) assert.ok(page.includes(` id="${id}"`), id);
});

test("its scripts are without the lines that are comments, and no template has several lines, in which one could stand", () => {
  const withEngine = viewer.page({ host, module: "" });
  const scripts = [...withEngine.matchAll(/<script type="(?:module|text\/plain)"[^>]*>([^]*?)<\/script>/g)].map(([, script]) => script).filter((script) => script.includes("=>"));
  assert.equal(scripts.length, 2);
  for (const line of scripts.join("\n").split("\n")) {
    assert.doesNotMatch(line, /^\s*(\/\/|\/\*)/);
    const ticks = line.replaceAll('"`"', "").replace(/\/(?:[^/\\[]|\\.)*`(?:[^/\\[]|\\.)*\/g/g, "").match(/`/g) ?? [];
    assert.equal(ticks.length % 2, 0, line);
  }
});

test("no two elements have one id", () => {
  const ids = [...page.slice(page.indexOf("<body>"), page.indexOf('<script type="module">')).matchAll(/ id="([^"]+)"/g)].map(([, id]) => id);
  assert.deepEqual(ids.filter((id, i) => ids.indexOf(id) !== i), []);
});
