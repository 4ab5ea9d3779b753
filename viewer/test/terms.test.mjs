// The sentences behind the plain words of the page, in a page of few elements.

import assert from "node:assert/strict";
import { readFileSync } from "node:fs";
import { test } from "node:test";
import { TERMS, watchTerms } from "../src/terms.mjs";

const PAGE = readFileSync(new URL("../src/page.html", import.meta.url), "utf8");

/* An element that has what is asked of it here. */
const part = (dataset = {}) => {
  const made = { dataset, textContent: "", hidden: true, style: {}, offsetWidth: 100, offsetHeight: 40, getBoundingClientRect: () => ({ left: 10, bottom: 20 }) };
  return Object.assign(made, { closest: () => (dataset.term === undefined ? null : made) });
};

test("each of the words has a description of its own, and the sentence stays while the pointer is on it", () => {
  const described = [...PAGE.matchAll(/data-term="(\w+)" aria-describedby="([\w-]+)"/g)].map(([, term, id]) => [term, id]);
  assert.deepEqual(described.map(([term]) => term), Object.keys(TERMS));
  const parts = { explained: part(), ...Object.fromEntries(described.map(([, id]) => [id, part()])) };
  for (const id of Object.keys(parts)) assert.ok(PAGE.includes(`<p id="${id}"`), id);
  const heard = {};
  const page = { innerWidth: 800, innerHeight: 600, document: { getElementById: (id) => parts[id], activeElement: part() }, addEventListener: (type, listener) => ((heard[type] ??= []).push(listener)) };
  const kept = Object.keys(page).map((name) => [name, Object.getOwnPropertyDescriptor(globalThis, name)]);
  Object.assign(globalThis, page);
  try {
    watchTerms();
    for (const [term, id] of described) assert.equal(parts[id].textContent, TERMS[term]);
    const over = (target) => heard.pointerover.forEach((listener) => listener({ target }));
    over(part({ term: "lists" }));
    assert.deepEqual([parts.explained.hidden, parts.explained.textContent, parts.explained.style.top], [false, TERMS.lists, "20px"]);
    over(parts.explained);
    assert.equal(parts.explained.hidden, false);
    heard.keydown.forEach((listener) => listener({ key: "Escape" }));
    assert.equal(parts.explained.hidden, true);
    over(part({ term: "quiet" }));
    over(part());
    assert.equal(parts.explained.hidden, true);
  } finally {
    for (const [name, before] of kept) {
      if (before === undefined) delete globalThis[name];
      else Object.defineProperty(globalThis, name, before);
    }
  }
});
