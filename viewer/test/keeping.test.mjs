// What was changed and not saved is there again when the page is reloaded.

import assert from "node:assert/strict";
import { test } from "node:test";
import { Keeper } from "../src/keeping.mjs";
import { emptyState, reduce } from "../src/state.mjs";

/* A tab's storage with so much room. */
function storage(room = Infinity) {
  const values = new Map();
  return {
    getItem: (key) => values.get(key) ?? null,
    removeItem: (key) => values.delete(key),
    setItem: (key, value) => {
      if (value.length > room) throw new Error("QuotaExceededError");
      values.set(key, value);
    },
  };
}

const opened = reduce(emptyState(), { do: "open", text: "clients 2\n", title: "first", place: 0 });
const changed = reduce(opened, { do: "play", instructions: ["read 0"] });

test("a changed session is kept, for the page that was opened with the same", () => {
  const tab = storage();
  assert.equal(new Keeper(tab, "/a.html").keep(["image"], changed), true);
  assert.deepEqual(new Keeper(tab, "/a.html").keptOf("image"), { text: "clients 2\nread 0\n", title: "first", place: 1, port: null });
  assert.equal(new Keeper(tab, "/a.html").keptOf(""), null);
  assert.equal(new Keeper(tab, "/b.html").keptOf("image"), null);
});

test("where the address became another one while the page was left, both name what is kept", () => {
  const keeper = new Keeper(storage(), "/a.html");
  keeper.keep(["", "image"], changed);
  for (const from of ["", "image"]) assert.equal(keeper.keptOf(from).text, "clients 2\nread 0\n", from);
  assert.equal(keeper.keptOf("other"), null);
});

test("a session that nobody has changed is not kept, and ends what was", () => {
  const keeper = new Keeper(storage(), "/a.html");
  keeper.keep([""], changed);
  assert.equal(keeper.keep([""], opened), true);
  assert.equal(keeper.keptOf(""), null);
});

test("where there is no room or no storage that is said", () => {
  assert.equal(new Keeper(storage(20), "/a.html").keep([""], changed), false);
  assert.equal(new Keeper(null, "/a.html").keep([""], changed), false);
  assert.equal(new Keeper(null, "/a.html").keptOf(""), null);
  const long = { ...changed, text: "; ".repeat(2_000_000) };
  assert.equal(new Keeper(storage(), "/a.html").keep([""], long), false);
});

test("what something else has put there is nothing", () => {
  for (const value of ["", "x", "null", "7", "[]", '{"from":"","text":"","title":"","place":0}', '{"from":[""],"text":1,"title":"","place":0}', '{"from":[""],"text":"","title":"","place":"0"}']) {
    const tab = storage();
    tab.setItem("otbench /a.html", value);
    assert.equal(new Keeper(tab, "/a.html").keptOf(""), null, value);
  }
});
