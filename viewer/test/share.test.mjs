// A session in an address.

import assert from "node:assert/strict";
import { test } from "node:test";
import { addressOf, packed, readAddress, unpacked } from "../src/share.mjs";
import { serveProgram, skip } from "./engines.mjs";
import { seededSchedule } from "./sessions.mjs";

test("an image is packed and unpacked", async () => {
  for (const length of [0, 1, 255, 100000]) {
    const image = Uint8Array.from({ length }, (_, i) => (i * 7919) >> 5);
    const text = await packed(image);
    assert.match(text, /^[A-Za-z0-9_-]*$/);
    assert.deepEqual(await unpacked(text), image);
  }
});

test("an image that is none is refused, in the page's own words", async () => {
  const rows = [
    ["AAAA", "its image is cut or damaged"],
    ["", "its image is cut"],
    ["abcde", "its image is cut"],
    ["<script>", 'its image has the character "<"'],
    ["ab%20", 'its image has the character "%"'],
    [(await packed(new Uint8Array(1000).map((_, i) => (i * 7919) >> 3))).slice(0, -12), "its image is cut or damaged"],
  ];
  for (const [text, message] of rows) await assert.rejects(unpacked(text), { message });
  await assert.rejects(unpacked("AAAA", "port"), { message: "its port is cut or damaged" });
});

test("an address is written and read", () => {
  const address = { place: 7, theme: null, image: "a-_9", port: "b-_8", isSparse: true, title: 'a;b=&#<"', names: new Map([[0, "Ann; & <b>"], [12, "Ü"]]), strange: null };
  assert.deepEqual(readAddress(addressOf(address)), address);
  assert.deepEqual(readAddress("#at=7;theme=dark"), { place: 7, theme: "dark", image: null, port: null, isSparse: false, title: "", names: new Map(), strange: null });
  assert.equal(readAddress("#at=7;sparse=1").isSparse, true);
  assert.equal(readAddress("#sparse=2").strange, "sparse=2");
});

test("the first part of an address that is none of a link is named", () => {
  const rows = [
    ["", null],
    ["#", null],
    ["#;;&", null],
    ["#at=-1", "at=-1"],
    ["#at=x;theme=blue", "at=x"],
    ["#c999=x", "c999=x"],
    ["#at=7;ima", "ima"],
    ["#%3Cscript%3E", "<script>"],
    ["#__proto__=1;constructor=2", "__proto__=1"],
  ];
  for (const [hash, strange] of rows) assert.equal(readAddress(hash).strange, strange, hash);
  assert.equal(readAddress("#image=<script>").image, "<script>");
  assert.equal(readAddress("#title=%").title, "%");
});

test("a report of a hundred lines has some 500 characters", { skip }, async () => {
  const schedule = seededSchedule({ seed: 3, clients: 2, edits: 30 }).split("\n").slice(0, 102).join("\n");
  const link = addressOf({ place: 50, image: await packed(serveProgram(["asm"], schedule).output), title: "" });
  assert.ok(link.length < 800, `${link.length} characters for ${schedule.split("\n").length} lines`);
});
