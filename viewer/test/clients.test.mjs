// Clients added, left out, and joining later, by the text; instructions moved.

import assert from "node:assert/strict";
import { test } from "node:test";
import { countsOf, withClient, withMoved, withOneLate, withOnePresent, withoutClient } from "../src/clients.mjs";
import { outlineOf } from "../../common/outline.mjs";
import { serveProgram, skip } from "./engines.mjs";

const TEXT = '; client 1 is Ann\nclients 3\nstart "s"\nedit 0 ["a",1]\n take\t1\nedit 2 ["2",1]\n; client 2 is "Bob 1"\n';
const by = (act, text, ...more) => act(text, outlineOf(text), ...more);

test("the counts of a text", () => {
  assert.deepEqual(by(countsOf, TEXT), { clients: 3, present: 3 });
  assert.deepEqual(by(countsOf, "clients 2\r\n present\t1\r\n"), { clients: 2, present: 1 });
  assert.equal(by(countsOf, "; nothing\n"), null);
});

test("a client is added, and joins later where that is wanted or where another one does", () => {
  assert.match(by(withClient, TEXT, false), /^clients 4\nstart/m);
  assert.match(by(withClient, TEXT, true), /^clients 4\npresent 3\nstart/m);
  assert.match(by(withClient, "clients 2\npresent 1\n", false), /^clients 3\npresent 1\n$/);
  assert.equal(by(withClient, "clients 64\n", false), "clients 64\n");
  assert.equal(by(withClient, "x\n", false), "x\n");
});

test("a client is left out with its instructions and its name, and those behind it are renumbered", () => {
  assert.equal(by(withoutClient, TEXT, 1), 'clients 2\nstart "s"\nedit 0 ["a",1]\nedit 1 ["2",1]\n; client 1 is "Bob 1"\n');
  assert.equal(by(withoutClient, "clients 3\npresent 2\njoin 2\nread 2\n", 0), "clients 2\npresent 1\njoin 1\nread 1\n");
  assert.equal(by(withoutClient, "clients 1\n", 0), "clients 1\n");
});

test("the last client joins later, before its first instruction, and from the opening on again", () => {
  const late = by(withOneLate, TEXT);
  assert.equal(late, '; client 1 is Ann\nclients 3\npresent 2\nstart "s"\nedit 0 ["a",1]\n take\t1\njoin 2\nedit 2 ["2",1]\n; client 2 is "Bob 1"\n');
  assert.equal(by(withOnePresent, late), TEXT);
  assert.equal(by(withOneLate, "clients 1\n"), "clients 1\npresent 0\n");
  assert.equal(by(withOnePresent, TEXT), TEXT);
});

test("an instruction moves to another place", () => {
  const text = "clients 1\nread 0\n; a comment\nread-server\n\nedit 0 []\n";
  const order = (from, to) => by(withMoved, text, from, to).split("\n").filter((line) => /^[re]/.test(line));
  assert.deepEqual(order(1, 3), ["read-server", "edit 0 []", "read 0"]);
  assert.deepEqual(order(3, 1), ["edit 0 []", "read 0", "read-server"]);
  assert.deepEqual(order(2, 2), ["read 0", "read-server", "edit 0 []"]);
});

test("each is a schedule that the program takes", { skip }, () => {
  const texts = [by(withClient, TEXT, true), by(withoutClient, TEXT, 1), by(withOneLate, TEXT), by(withClient, "clients 2\npresent 1\n", false)];
  for (const text of texts) assert.equal(serveProgram(["asm"], text).status, 0, text);
});
